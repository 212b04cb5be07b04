"""Small libraries and scripts drawn at random, for at_random.py: what stands in the files, and what terminals send.

In the order of reading: library; messages, script; cases.
"""
