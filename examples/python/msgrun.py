"""A client of `msgrun serve`: an engine of a scenario, frame by frame, from Python."""
import json
import subprocess
import tempfile
from pathlib import Path
from subprocess import PIPE


class Refused(Exception):
    """A frame that was refused, and changed nothing: its `refused`, `name`, `at` and `why` are in `answer`."""

    def __init__(self, answer):
        super().__init__(f"{answer['name']} at {answer['at'] or 'the line'}: {answer['why']}")
        self.answer = answer


class Ended(RuntimeError):
    """The program ended by itself, with this `status`. The text is what it told: if the scenario is refused, with status
    2, the lines of `msgrun check`."""

    def __init__(self, status, told):
        super().__init__(told.strip() or f"msgrun ended with status {status}")
        self.status = status


class Frame(dict):
    """What came of a frame. An item has two parts, or if it was posted as a thing that as a third."""

    def replies(self, system):
        """What the ops of a system were answered; nothing if it was skipped or hasn't joined."""
        return next((turn.get("replies", []) for turn in self["turns"] if turn["system"] == system), [])

    def read(self, system, of_type):
        """The messages of a type that a system was given, numbers and things; none if it was skipped."""
        items = [reply.get("items", []) for reply in self.replies(system) if reply.get("type") == of_type]
        return [item[2] if len(item) > 2 else item[0] for some in items for item in some]


class Engine:
    """The engine of a scenario: a file, or a dict of what a file has. `with Engine(program, scenario) as engine:` ends
    it, and keeps its `status` and its readers."""

    def __init__(self, program, scenario, workers=1):
        self.status, self.end = None, None
        self.posts, self.posted, self.things = [], 0, {}
        with tempfile.TemporaryDirectory() as room:
            file = Path(scenario if not isinstance(scenario, dict) else room + "/scenario.json")
            if isinstance(scenario, dict):
                file.write_text(json.dumps(scenario), encoding="utf-8")
            words = [program, "serve", file, "--workers", str(workers)]
            self.process = subprocess.Popen(words, stdin=PIPE, stdout=PIPE, stderr=PIPE, text=True)
            self.readers()
            self.scenario = json.loads(file.read_text(encoding="utf-8"))
        self.frames = list(self.scenario["frames"])

    def __enter__(self):
        return self

    def __exit__(self, *_):
        self.close()

    def close(self):
        """Ends the program."""
        if self.status is None:
            answers, self.told = self.process.communicate()
            self.status = self.process.returncode
            self.end = json.loads(answers.splitlines()[-1]) if self.status == 0 else None

    def post(self, of_type, thing):
        """Posts a number or any other thing with the next frame."""
        self.posts.append((of_type, thing))

    def frame(self, posts=()):
        """Runs a frame with what was posted and these posts, each a type and a number or any other thing, and returns
        what came of it. In place of a thing its number among all posts is posted, and who reads it gets the thing too."""
        posts, self.posts = [*self.posts, *posts], []
        line = [[of_type, thing if is_number(thing) else self.posted + k] for k, (of_type, thing) in enumerate(posts)]
        frame = Frame(self.ask(line))
        self.frames.append(line)
        self.posted += len(line)
        self.follow(posts, frame)
        return frame

    def follow(self, posts, frame):
        """Adds things to the items that they were posted or forwarded as, and keeps those of messages that are kept."""
        for (of_type, thing), told in zip(posts, frame["posts"]):
            if not is_number(thing) and "first" in told:
                self.things[of_type, told["first"]] = thing
        for reply in (reply for turn in frame["turns"] for reply in turn.get("replies", [])):
            for k, item in enumerate(reply.get("items", [])):
                if (reply["type"], reply["first"] + k) in self.things:
                    item.append(self.things[reply["type"], reply["first"] + k])
                    if "wrote" in reply:
                        self.things[reply["to"], reply["wrote"]["first"] + k] = item[2]
        self.things = {(of_type, number): thing for (of_type, number), thing in self.things.items()
                       if number >= frame["types"][of_type]["oldest"]}

    def record(self, file):
        """Writes a scenario file with all frames so far: `msgrun run` gives the same replies. A file has at most 10,000
        frames and 4 MiB."""
        if len(self.frames) > 10_000:
            raise ValueError(f"a file has at most 10,000 frames, and these are {len(self.frames)}")
        with open(file, "w", encoding="utf-8") as text:
            json.dump({**self.scenario, "frames": self.frames}, text)

    def readers(self):
        """What each reader got, missed and cleared, so far or in all."""
        return (self.end or self.ask("readers"))["readers"]

    def ask(self, line):
        try:
            print(json.dumps(line), file=self.process.stdin, flush=True)
        except BrokenPipeError:
            pass
        answer = self.process.stdout.readline()
        if not answer:
            self.close()
            raise Ended(self.status, self.told)
        answer = json.loads(answer)
        if "refused" in answer:
            raise Refused(answer)
        return answer


def is_number(thing):
    return isinstance(thing, (int, float)) and not isinstance(thing, bool)
