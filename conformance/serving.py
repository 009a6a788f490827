"""The store's side of `compare --keep`: reads schedules until standard input ends, and answers each of them."""
import json
import sys


def serve(output_of):
    """Answers each schedule with the lines that `output_of` returns for its scenario."""
    for line in sys.stdin:
        try:
            request = json.loads(line)
            number, scenario = request["id"], request["scenario"]
        except (ValueError, KeyError, TypeError):
            sys.exit("--keep: a line of standard input is not a JSON object with an id and a scenario, as"
                     " `compare --keep` passes it")
        print(json.dumps({"id": number, "lines": output_of(scenario)}), flush=True)
