"""Calls the program from Python, by the package in embedding/python: PYTHONPATH=embedding/python python3 caller.py"""
import mencius

SCENARIO = {"version": 1, "servers": 1, "events": ["submit 0 1.0 set a x", "deliver 0 0", "deliver 1 0", "execute 0"]}
report = mencius.replay(SCENARIO)
print(report.servers[0].history, report.replies["1.0"])

try:
    with mencius.Judge() as judge:
        for command in ("1.0", "2.0"):
            judge.submit(command, "set", "a", "x")
        judge.execute(0, "1.0")
        judge.execute(1, "2.0")
except mencius.Violation as violation:
    print(violation.verdict.promise)
