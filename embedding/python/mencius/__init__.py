"""A Mencius key-value store, written with proofs: replay schedules, and judge the log of any replicated store.

    import mencius

    report = mencius.replay({"version": 1, "servers": 1, "events": ["submit 0 1.0 set a x"]})
    print(report.servers[0].front, report.replies["1.0"])

    verdict = mencius.judge("submit 1.0 set a x\\nexecute 0 1.0\\n")
    print(verdict.word)

    with mencius.Judge() as judge:  # raises Violation if an observation breaks a promise
        judge.submit("1.0", "set", "a", "x")
        judge.execute(0, "1.0")

A function takes a scenario as a dict, text or bytes. It raises Fault if the program ends with a fault. `call` does any
task of the program. The work is done by proved code in a shared library, which library.py finds. The rest of this
package, which writes scenarios and reads texts, is not proved.
"""
from .judging import Judge, LogLine, Verdict, Violation, judge
from .library import Answer, Fault, LibraryMissing, call
from .reports import Checked, Refusal, Report, ServerReport, Step, Trace, check, replay, trace

__all__ = ["Answer", "Checked", "Fault", "Judge", "LibraryMissing", "LogLine", "Refusal", "Report", "ServerReport",
           "Step", "Trace", "Verdict", "Violation", "call", "check", "judge", "replay", "trace"]
__version__ = "0.1.0"
