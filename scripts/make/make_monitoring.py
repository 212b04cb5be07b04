#!/usr/bin/env python3
"""Writes examples/alerts.yml, rules of Prometheus for holddesk, and examples/dashboard.json, a dashboard of Grafana.

    python3 scripts/make/make_monitoring.py [--check]

Both come from one list of the server's metrics, which has the panels and the alerts of each, so that none is left out.
scripts/play/monitoring.py compares the list with what a server has, and tries the rules with the series that stand
beside them. With --check nothing is written. Needs nothing but Python 3. Status 0, with --check: the files are so.
"""

import argparse
import json
import sys
from dataclasses import dataclass, field
from pathlib import Path

EXAMPLES = Path(__file__).resolve().parent.parent.parent / "examples"
ALERTS, DASHBOARD = EXAMPLES / "alerts.yml", EXAMPLES / "dashboard.json"
HERE = 'instance=~"$instance"'
WIDTH, HEIGHT = 12, 8  # of a panel, in the units of a dashboard, which is 24 wide
TURNS = 'holddesk_turns_total{{kind="checkout",outcome="{}"}}'.format
FAILED = 'node_systemd_unit_state{name="holddesk-night.service",state="failed"}'
TRIGGERED = 'node_systemd_timer_last_trigger_seconds{name="holddesk-night.timer"}'
PROM = 'node_textfile_mtime_seconds{file="holddesk.prom"}'


@dataclass
class Panel:
    """A graph: its title, its unit, and expressions, each with what its lines are called."""
    title: str
    unit: str
    lines: dict


@dataclass
class Alert:
    """A rule: when it holds for so many minutes there is an alert. The series are those of a minute each, in promtool's
    notation: with the first it is there after so many minutes, and with the second it isn't."""
    name: str
    expression: str
    minutes: int
    severity: str
    summary: str
    action: str
    fires: dict
    quiet: dict
    after: int = 60
    labels: dict = field(default_factory=lambda: {"instance": "desk"})


@dataclass
class Metric:
    """A metric: its name, its type, its labels, and what is made of it."""
    name: str
    kind: str
    panels: list
    alerts: list = field(default_factory=list)
    labels: tuple = ()


METRICS = [
    Metric("holddesk_well", "gauge", [Panel("Health: 1 is well", "none", {f"holddesk_well{{{HERE}}}": "{{instance}}"})], [
        Alert("HolddeskNotWell", "holddesk_well == 0", 1, "critical", "holddesk can't do its work",
              "Run holddesk status: docs/faults.md has what to do for each message.",
              {"holddesk_well": "0x60"}, {"holddesk_well": "1x60"}),
        Alert("HolddeskAbsent", "absent(holddesk_well)", 5, "critical", "Nothing is known of holddesk",
              "Look whether the server runs, and the job that hands its figures on.",
              {}, {"holddesk_well": "1x60"}, labels={}),
        Alert("HolddeskSilent", 'time() - node_textfile_mtime_seconds{file=~"(.*/)?holddesk[.]prom"} > 300', 5, "critical",
              "The figures of holddesk are older than five minutes",
              "Look whether the server answers (holddesk status), and whether cron runs the job that hands its figures on.",
              {PROM: "0x60"}, {PROM: "0+60x60"}, after=11, labels={"instance": "desk", "file": "holddesk.prom"}),
    ]),
    Metric("holddesk_journal_turns", "gauge",
           [Panel("Turns of the journal", "none", {f"holddesk_journal_turns{{{HERE}}}": "{{instance}}"})], [
        Alert("HolddeskLongJournal", "holddesk_journal_turns > 2000000", 5, "warning",
              "The journal has more than two million turns",
              "Memory and the time of a start grow with it: let the night's carry run, or restart the server.",
              {"holddesk_journal_turns": "2000001x60"}, {"holddesk_journal_turns": "2000000x60"}),
    ]),
    Metric("holddesk_last_number", "gauge",
           [Panel("Number of the last command", "none", {f"holddesk_last_number{{{HERE}}}": "{{instance}}"})], [
        Alert("HolddeskNumbersUsed", "holddesk_last_number > 900000000", 5, "warning",
              "Nine tenths of the numbers that commands can have are used",
              "After 999999999 no carry is possible: begin a new library (docs/opening.md).",
              {"holddesk_last_number": "900000001x60"}, {"holddesk_last_number": "900000000x60"}),
    ]),
    Metric("holddesk_numbers_left", "gauge",
           [Panel("Commands that the journal can still take", "none", {f"holddesk_numbers_left{{{HERE}}}": "{{instance}}"})], [
        Alert("HolddeskJournalFull", "holddesk_numbers_left == 0", 1, "critical", "The journal takes no more commands",
              "Each command is answered JOURNAL FULL. Carry now: systemctl start holddesk-night.",
              {"holddesk_numbers_left": "0x60"}, {"holddesk_numbers_left": "1x60"}),
        Alert("HolddeskJournalFills", "predict_linear(holddesk_numbers_left[3h], 86400) < 0", 30, "warning",
              "At this pace the journal is full within a day",
              "Look that the night's carry is on: systemctl list-timers holddesk-night.timer.",
              {"holddesk_numbers_left": "100000-200x300"}, {"holddesk_numbers_left": "1000000-100x300"}, after=300),
    ]),
    Metric("holddesk_connections", "gauge",
           [Panel("Connections of terminals, and busy workers", "none",
                  {f"holddesk_connections{{{HERE}}}": "connections", f"holddesk_workers_busy{{{HERE}}}": "busy workers"})], [
        Alert("HolddeskNoTerminals", "holddesk_connections == 0", 30, "info",
              "No terminal has been connected for half an hour", "If the library is open, look at the network and the tunnel.",
              {"holddesk_connections": "0x60"}, {"holddesk_connections": "1x60"}),
    ]),
    Metric("holddesk_workers_busy", "gauge",
           [Panel("Busy workers", "none", {f"holddesk_workers_busy{{{HERE}}}": "{{instance}}"})], [
        # nine tenths of the 64 of holddesk.service: change it with --workers or --terminals
        Alert("HolddeskPlacesScarce", "holddesk_workers_busy >= 58", 5, "warning", "Nearly all workers serve a connection",
              "Further terminals wait, or are turned away: start the server with more --workers.",
              {"holddesk_workers_busy": "58x60"}, {"holddesk_workers_busy": "57x60"}),
    ]),
    Metric("holddesk_journal_bytes", "gauge",
           [Panel("Journal and log", "bytes", {f"holddesk_journal_bytes{{{HERE}}}": "{{instance}}"})]),
    Metric("holddesk_last_commit_seconds", "gauge",
           [Panel("Last commit", "s", {f"holddesk_last_commit_seconds{{{HERE}}}": "{{instance}}"})], [
        Alert("HolddeskSlowCommits", "avg_over_time(holddesk_last_commit_seconds[10m]) > 0.1", 5, "warning",
              "Commits take more than a tenth of a second",
              "Each command waits for its commit: look at the disk, and at the link to the second machine.",
              {"holddesk_last_commit_seconds": "0.2x60"}, {"holddesk_last_commit_seconds": "0.002x60"}),
    ]),
    Metric("holddesk_turns_total", "counter",
           [Panel("Turns a second, by kind", "none",
                  {f"sum by (kind) (rate(holddesk_turns_total{{{HERE}}}[5m]))": "{{kind}}"}),
            Panel("Turns a second, by outcome", "none",
                  {f"sum by (outcome) (rate(holddesk_turns_total{{{HERE}}}[5m]))": "{{outcome}}"})], [
        Alert("HolddeskRestarts", "max by (instance) (resets(holddesk_turns_total[1h])) > 2", 1, "warning",
              "The server was started three times in an hour", "journalctl -u holddesk has why it ended.",
              {TURNS("done"): "9 0 9 0 9 0 9x20"}, {TURNS("done"): "9 0 9 0 9x50"}, after=20),
        Alert("HolddeskRepeats", 'sum by (instance) (rate(holddesk_turns_total{outcome="repeated"}[30m])) > '
              "0.05 * sum by (instance) (rate(holddesk_turns_total[30m]))", 15, "warning",
              "Terminals send more than one message in twenty again",
              "Replies are lost, or come too late: look at the network, and at the last commits.",
              {TURNS("done"): "0+10x90", TURNS("repeated"): "0+1x90"},
              {TURNS("done"): "0+99x90", TURNS("repeated"): "0+1x90"}, after=90),
        Alert("HolddeskRefusals", 'sum by (instance) (rate(holddesk_turns_total{outcome="refused"}[30m])) > '
              "0.5 * sum by (instance) (rate(holddesk_turns_total[30m]))", 30, "warning",
              "More than half of the turns are refused",
              "Look at show turns for the reasons: an export may have wrong loan limits, or lack renewals.",
              {TURNS("done"): "0+1x90", TURNS("refused"): "0+2x90"},
              {TURNS("done"): "0+2x90", TURNS("refused"): "0+1x90"}, after=90),
    ], labels=("kind", "outcome")),
]

# what no metric of the server has, and node_exporter knows of systemd (--collector.systemd)
NIGHTS = [
    Alert("HolddeskCarryFailed", f"{FAILED} == 1", 5, "critical",
          "The night's carry failed",
          "Yesterday's catalogue is served. journalctl -u holddesk-night has what is in the way (docs/daily.md).",
          {FAILED: "1x60"}, {FAILED: "0x60"},
          labels={"instance": "desk", "name": "holddesk-night.service", "state": "failed"}),
    Alert("HolddeskNoCarry", f"time() - {TRIGGERED} > 129600", 5, "warning",
          "There was no carry for a day and a half", "Look at systemctl list-timers holddesk-night.timer.",
          {TRIGGERED: "0x2400"}, {TRIGGERED: "0x1440 86400x960"}, after=2400,
          labels={"instance": "desk", "name": "holddesk-night.timer"}),
]
ALL = [alert for metric in METRICS for alert in metric.alerts] + NIGHTS


def rules():
    """The rules, as YAML."""
    lines = ["# Rules of Prometheus for holddesk, written by scripts/make/make_monitoring.py. docs/daily.md, \"What to",
             "# watch\", has how Prometheus gets the figures. Change the limits to those of your library.", "groups:",
             "  - name: holddesk", "    rules:"]
    for alert in ALL:
        lines += [f"      - alert: {alert.name}", f"        expr: {json.dumps(alert.expression)}",
                  f"        for: {alert.minutes}m", "        labels:", f"          severity: {alert.severity}",
                  "        annotations:", f"          summary: {json.dumps(alert.summary)}",
                  f"          description: {json.dumps(alert.action)}"]
    return "\n".join(lines) + "\n"


def dashboard():
    """The dashboard, as JSON."""
    source = {"type": "prometheus", "uid": "${datasource}"}
    panels = []
    for number, panel in enumerate(it for metric in METRICS for it in metric.panels):
        place = {"x": number % 2 * WIDTH, "y": number // 2 * HEIGHT, "w": WIDTH, "h": HEIGHT}
        targets = [{"refId": chr(ord("A") + at), "datasource": source, "expr": expression, "legendFormat": name}
                   for at, (expression, name) in enumerate(panel.lines.items())]
        panels.append({"id": number + 1, "type": "timeseries", "title": panel.title, "datasource": source, "gridPos": place,
                       "fieldConfig": {"defaults": {"unit": panel.unit, "min": 0}, "overrides": []}, "targets": targets})
    variables = [{"name": "datasource", "type": "datasource", "query": "prometheus"},
                 {"name": "instance", "type": "query", "datasource": source, "multi": True, "includeAll": True,
                  "query": "label_values(holddesk_well, instance)", "refresh": 2}]
    board = {"uid": "holddesk", "title": "holddesk", "schemaVersion": 38, "editable": True, "refresh": "1m",
             "time": {"from": "now-24h", "to": "now"}, "templating": {"list": variables}, "panels": panels}
    return json.dumps(board, indent=2) + "\n"


def tests():
    """What promtool is to try the rules with, as JSON, which is YAML: each alert with what brings it, and with what
    doesn't."""
    found = []
    for alert in ALL:
        for series, is_there in ((alert.fires, True), (alert.quiet, False)):
            given = [{"series": with_instance(name), "values": values} for name, values in series.items()]
            wanted = [{"exp_labels": {"severity": alert.severity, **alert.labels},
                       "exp_annotations": {"summary": alert.summary, "description": alert.action}}]
            found.append({"interval": "1m", "input_series": given, "alert_rule_test": [
                {"eval_time": f"{alert.after}m", "alertname": alert.name, "exp_alerts": wanted if is_there else []}]})
    return json.dumps({"rule_files": [str(ALERTS)], "evaluation_interval": "1m", "tests": found})


def with_instance(series):
    """A series of one machine."""
    name, _, labels = series.rstrip("}").partition("{")
    return f'{name}{{instance="desk"{"," if labels else ""}{labels}}}'


def main():
    parser = argparse.ArgumentParser(description=__doc__, usage=argparse.SUPPRESS,
                                     formatter_class=argparse.RawDescriptionHelpFormatter)
    parser.add_argument("--check", action="store_true", help="look that the files are so")
    is_check = parser.parse_args().check
    for path, text in ((ALERTS, rules()), (DASHBOARD, dashboard())):
        if not is_check:
            path.write_text(text, encoding="utf-8")
        elif not path.exists() or path.read_text(encoding="utf-8") != text:
            sys.exit(f"make_monitoring: examples/{path.name} is another: run scripts/make/make_monitoring.py")


if __name__ == "__main__":
    main()
