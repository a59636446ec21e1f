"""What the world saw of a run, next to what its entries print and call: the k-th of the one has to be the k-th of the other."""
import collections

from . import values
from .answers import Failure, Reason, Sign


class World:
    """The integers and the calls of each device, as the entries make them and as `output` and `heard` lines have them."""

    def __init__(self, has_known_devices):
        self.written, self.prints = [], []
        self.hearings, self.calls = collections.defaultdict(list), collections.defaultdict(list)
        self.has_known_devices = has_known_devices

    def wrote(self, line):
        self.written.append(line)
        self.compare_output(len(self.written) - 1)

    def printed(self, line, integers):
        for integer in integers:
            self.prints.append((line, integer))
            self.compare_output(len(self.prints) - 1)

    def compare_output(self, at):
        """Compares one integer, once both sides have it."""
        if at >= min(len(self.written), len(self.prints)):
            return
        (line, integer), written = self.prints[at], self.written[at]
        if integer != written.value:
            details = [f"found: {written.value}", f"expected: {integer}, which line {line} prints"]
            raise Failure(Reason(Sign.OUTPUT, written.line, 8, f"another integer {at + 1} of the output", details))

    def heard(self, line):
        self.hearings[line.device].append(line)
        self.compare_calls(line.device, len(self.hearings[line.device]) - 1)

    def called(self, line, act):
        calls = self.calls[act.subject]
        calls.append((line, act))
        if self.has_known_devices:
            self.check_answer(line, act, calls)
        self.compare_calls(act.subject, len(calls) - 1)

    def check_answer(self, line, act, calls):
        """Compares an answer with that of the devices of LANGUAGE."""
        total = len(calls) if act.subject == 0 else sum(each.value for _, each in calls)
        expected = (total + values.MOST_INTEGER) % (2 * values.MOST_INTEGER) - values.MOST_INTEGER
        if act.subject < 2 and act.answer != expected:
            what = f"call {len(calls)} of device {act.subject}, with {act.value}"
            details = [f"found: {act.answer}", f"expected: {expected}, {'the number' if act.subject == 0 else 'the sum'} of the calls so far"]
            raise Failure(Reason(Sign.HEARD, line, 1, f"another answer to {what}", details))

    def compare_calls(self, device, at):
        if at >= min(len(self.hearings[device]), len(self.calls[device])):
            return
        (line, act), heard = self.calls[device][at], self.hearings[device][at]
        if (act.value, act.answer) != (heard.value, heard.answer):
            details = [f"found: {heard.value} = {heard.answer}", f"expected: {act.value} = {act.answer}, the call of line {line}"]
            raise Failure(Reason(Sign.HEARD, heard.line, 7, f"another call {at + 1} of device {device}", details))

    def check_end(self, end, whole):
        """Compares how many there are, once the run is over."""
        if len(self.written) > len(self.prints):
            line = self.written[len(self.prints)]
            raise Failure(Reason(Sign.OUTPUT, line.line, 8, f"integer {len(self.prints) + 1} of the output is printed by no entry"))
        if "output" in whole and len(self.written) < len(self.prints):
            at, integer = self.prints[len(self.written)]
            raise Failure(Reason(Sign.OUTPUT, end.line, 1, f"integer {len(self.written) + 1} isn't in the output: line {at} prints {integer}"))
        for device in sorted({*self.hearings, *self.calls}):
            self.check_device(end, device, "heard" in whole)

    def check_device(self, end, device, is_whole):
        heard, calls = self.hearings[device], self.calls[device]
        if len(heard) > len(calls):
            line = heard[len(calls)]
            raise Failure(Reason(Sign.HEARD, line.line, 7, f"call {len(calls) + 1} of device {device} is made by no entry"))
        if is_whole and len(heard) < len(calls):
            line, act = calls[len(heard)]
            raise Failure(Reason(Sign.HEARD, end.line, 1, f"call {len(heard) + 1} of device {device}, with {act.value}, wasn't heard: line {line} makes it"))
