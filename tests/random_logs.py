"""Random logs that lead deep: made(SEED, N) is log N of a seed, always the same; pair(SEED, N) is it and a second log to lay beside it.

Of both modules: whole transfers of 1 to 128 records in odd pieces, good, damaged and damaged twice, which the end names; hosts
with right, old and guessed contexts, and with the other module's; Starts while the other module has the area; 7, 8 and 9 ticks;
power cycles in between; passphrases up to and past the limit; freezes; thresholds and readings on both sides of them; reserved
bits; bad and short records.
"""
import random

import records

SENDS_MOST = 220        # in one transfer
LAST = 0xFFFFFFFF


class Module:
    """A rough idea of one module's state, to aim with."""

    def __init__(self):
        self.phase, self.current, self.received, self.ticks = "idle", 0, 0, 0
        self.sent, self.good = b"", None
        self.enabled = self.locked = self.frozen = False
        self.wrong = 0
        self.secret = b""

    def has_area(self):
        return self.phase in ("receiving", "verifying")


class Maker:
    """Makes one log. It keeps a rough idea of the modules' state to aim with; no answer is judged by it."""

    def __init__(self, chance):
        self.chance = chance
        self.log = []
        self.modules = [Module() for _ in range(records.MODULES)]
        self.own = 0            # the module whose steps come
        self.contexts = 0       # given out by both
        self.secrets = [b"", b"alpha", b"beta", b"\xff" * 32, bytes(31) + b"\1", self.some_bytes(32)]

    def some_bytes(self, length):
        return self.chance.getrandbits(8 * length).to_bytes(length, "little") if length else b""

    def one_in(self, number):
        return self.chance.randrange(number) == 0

    def pick(self, *choices):
        return self.chance.choice(choices)

    # ---- Modules ----

    @property
    def now(self):
        return self.modules[self.own]

    @property
    def beside(self):
        return self.modules[1 - self.own]

    def of_other(self, step):
        """A step of the other module."""
        self.own = 1 - self.own
        step()
        self.own = 1 - self.own

    # ---- Steps ----

    def call(self, host, function, request=b"", revision=2):
        self.log.append(records.call(host, function, request, revision, module=self.own))

    def start(self, host):
        self.call(host, records.START)
        now = self.now
        if now.phase in ("idle", "failed") and not self.beside.has_area():
            self.contexts += 1
            now.phase, now.received, now.sent, now.current = "receiving", 0, b"", self.contexts

    def send(self, host, context, offset, piece, length=None):
        self.call(host, records.SEND, records.send(context, offset, piece, length))
        now = self.now
        if (now.phase, context, offset) == ("receiving", now.current, now.received) and length in (None, len(piece)) \
                and 1 <= len(piece) <= 512 and offset + len(piece) <= records.AREA:
            now.received += len(piece)
            now.sent += piece

    def finish(self, host, context, flag=0):
        reserved = self.pick(self.some_bytes(3), (1 << self.chance.randrange(24)).to_bytes(3, "little")) if self.one_in(12) else b""
        self.call(host, records.FINISH, records.finish(context, flag, reserved))
        now = self.now
        if now.phase == "receiving" and context == now.current and not any(reserved):
            if flag == 0:
                now.phase, now.ticks = "verifying", 8
            elif flag == 1:
                now.phase, now.received = "idle", 0

    def tick(self, count=1):
        for _ in range(count):
            self.log.append(records.event(records.TICK))
            for module in self.modules:
                if module.phase == "verifying":
                    module.ticks -= 1
                    if module.ticks == 0:
                        module.phase = "staged" if module.sent == module.good else "failed"

    def power(self):
        self.log.append(records.event(records.POWER, self.own))
        now = self.now
        now.phase, now.received, now.frozen, now.wrong = "idle", 0, False, 0
        now.locked = now.enabled

    def reading(self, spare, media, controller):
        self.log.append(records.reading(spare, media, controller, self.own))

    # ---- Contexts and hosts ----

    def context(self):
        """Right, old, the other module's, to come, or guessed."""
        current = self.now.current
        return self.pick(current, current, current, max(0, current - 1), current + 1, self.contexts, self.contexts + 1, self.beside.current,
                         0, 1, self.chance.randrange(self.contexts + 3), current | 256, current | 1 << 24, LAST)

    def host(self):
        return self.pick(1, 1, 1, 2, 2, 3, 3, 4)

    # ---- What comes in between ----

    def stray_send(self):
        received = self.now.received
        offset = self.pick(received, received, 0, received + 1, max(0, received - 1), 16383, 16384, LAST,
                           self.chance.randrange(records.AREA))
        size = self.pick(0, 1, 1, 2, 3, 16, 511, 512, 513, 524, self.chance.randrange(1, 513))
        piece = self.some_bytes(size)
        length = self.pick(None, None, None, None, size + 1, max(0, size - 1), size + 256, size + 65536, LAST)
        context = self.pick(self.context(), self.contexts + 1, max(0, self.now.current - 1), self.beside.current)
        self.send(self.host(), context, offset, piece, length)

    def between(self):
        """Something that is no part of what goes on, of the same module or of the other."""
        if self.one_in(3):
            self.of_other(self.stray)
        else:
            self.stray()

    def stray(self):
        kind = self.chance.randrange(25)
        host = self.host()
        if kind < 4:
            self.start(host)
        elif kind < 8:
            self.stray_send()
        elif kind < 10:
            stale = self.pick(max(0, self.now.current - 1), self.contexts + 1, self.beside.current, 0, LAST)
            self.finish(host, stale, self.pick(0, 1))
        elif kind == 10:
            self.finish(host, self.context(), self.pick(2, 3, 128, 255))
        elif kind < 14:
            self.call(host, records.QUERY, records.query(self.context()))
        elif kind == 14:
            self.call(host, records.INFO)
        elif kind == 15:
            self.call(host, records.SECURITY)
        elif kind == 16:
            self.pick(self.thresholds, self.health)()
        elif kind < 20:
            self.bad()
        elif kind == 20:
            self.passphrase_step()
        elif kind == 21 and not self.now.has_area():
            self.power()
        else:
            self.noise()

    # ---- Whole transfers ----

    def image(self, damaged=False):
        kind = self.chance.randrange(100)
        count = (self.chance.randint(1, 4) if kind < 50 else self.chance.randint(5, 40) if kind < 75
                 else self.chance.randint(41, 127) if kind < 90 else 128)
        version = self.pick(1, 2, self.chance.randint(1, 300), 1 << 32, 0xFFFFFFFFFFFFFFFF, self.chance.getrandbits(64) | 1)
        payload = self.pick(None, None, b"", b"\xff" * 112, self.some_bytes(112))
        fault, at, size, second, second_at = None, None, None, None, None
        if damaged or self.one_in(3):
            fault = self.chance.choice(records.FAULTS)
            at = self.pick(0, count - 1, self.chance.randrange(count))
            if fault == "zero-version" and self.one_in(2):
                at = None
            if fault == "version" and count == 1:
                fault = None        # one record's version is the same in all
            if fault == "size":
                size = self.pick(0, 1, 127, 128 * count - 1, min(128 * count + 1, records.AREA),
                                 self.chance.randrange(128 * count), 128 * (count - 1))
            if fault and self.one_in(2):
                second, second_at = self.chance.choice(records.FAULTS[1:]), self.pick(0, count - 1, self.chance.randrange(count))
        whole = records.image(count, version, payload, fault, at, size, second, second_at)
        self.now.good = whole if fault is None else None
        if fault is None and count > 1 and self.one_in(12):
            whole = whole[:128 * self.chance.randrange(1, count)]      # fewer records than they say
        return whole

    def free_area(self):
        """Most often the other module gives up the area."""
        if self.beside.has_area() and not self.one_in(6):
            self.of_other(self.pick(self.power, self.power, self.give_up))

    def give_up(self):
        """What a host can do about a transfer that goes on: an abort, or to wait for its last tick."""
        self.finish(self.host(), self.now.current, 1)
        if self.now.phase == "verifying":
            self.tick(self.now.ticks)

    def failing(self):
        """A transfer up to its last tick, most often of a damaged image, for a log to end with."""
        self.power()
        self.free_area()
        self.start(self.host())
        for offset, piece in records.pieces(self.image(damaged=True), [512]):
            self.send(self.host(), self.now.current, offset, piece)
        self.finish(self.host(), self.now.current)
        self.tick(8)

    def sizes(self, length):
        least = max(1, length // SENDS_MOST)
        choice = self.chance.randrange(6)
        if choice == 0:
            return [512]
        if choice == 1:
            return [self.pick(511, 509, 128, 129, 127, 256)]
        if choice == 2 and length <= 400:
            return [self.pick(1, 2, 3, 7)] if length <= SENDS_MOST else [self.pick(2, 3, 7)]
        return [self.chance.randint(least, min(512, max(least + 1, 20 * least, 64))) for _ in range(self.chance.randint(1, 9))]

    def transfer(self):
        host = self.host()
        if self.now.phase == "staged" and not self.one_in(6):
            self.power()
        if self.now.has_area() and not self.one_in(6):
            self.give_up()
            if self.now.phase == "staged":
                self.power()
        self.free_area()
        whole = self.image()
        self.start(host)
        if self.now.phase != "receiving":
            return
        context = self.now.current
        crowd = self.pick(4, 8, 20, 1000)
        ending = self.chance.randrange(30)
        stop = self.chance.randrange(len(whole) + 1) if ending < 4 else len(whole)
        for offset, piece in records.pieces(whole, self.sizes(len(whole))):
            if self.one_in(crowd):
                self.between()
            if offset >= stop:
                break
            self.send(host, context, offset, piece)
        if ending == 0:
            self.power()
            self.send(host, context, 0, whole[:self.chance.randint(1, 64)] or b"\1")     # the late piece
            return
        if ending == 1:
            self.finish(host, context, 1)
            return
        if ending == 2 and self.one_in(2):
            return
        if self.one_in(crowd):
            self.between()
        self.finish(host, context, 0)
        self.verify(host, context, crowd)

    def verify(self, host, context, crowd):
        for _ in range(self.pick(7, 8, 8, 8, 8, 9, self.chance.randrange(8))):
            if self.one_in(crowd + 2):
                self.pick(self.between, lambda: self.finish(host, context, 1), lambda: self.start(self.host()))()
            self.tick()
        self.call(host, records.QUERY, records.query(context))
        if self.one_in(3):
            self.between()
        if not self.one_in(3):
            self.power()
            self.call(host, records.INFO)
            if self.one_in(3):
                self.call(host, records.QUERY, records.query(context))
                self.tick(self.pick(1, 8))

    # ---- Security ----

    def passphrase_call(self, function, current, new=b""):
        """20, 21 or 22, and what the idea of the state makes of it."""
        current, new = records.passphrase(current), records.passphrase(new)
        request = current + new if function == records.SET_PASSPHRASE else current
        self.call(self.host(), function, request)
        right = current == records.passphrase(self.now.secret)
        if self.now.frozen or self.now.wrong == 10:
            return
        if function == records.SET_PASSPHRASE:
            allowed, right = not self.now.locked, right or not self.now.enabled
        elif function == records.DISABLE:
            allowed = self.now.enabled and not self.now.locked
        else:
            allowed = self.now.enabled and self.now.locked
        if not allowed:
            return
        if not right:
            self.now.wrong += 1
            return
        self.now.wrong = 0
        if function == records.SET_PASSPHRASE:
            self.now.enabled, self.now.secret = True, new
        elif function == records.DISABLE:
            self.now.enabled, self.now.secret = False, b""
        else:
            self.now.locked = False

    def near(self):
        """The passphrase with one bit turned, or another one."""
        right = bytearray(records.passphrase(self.now.secret))
        right[self.pick(0, 31, self.chance.randrange(32))] ^= 1 << self.chance.randrange(8)
        return self.pick(bytes(right), bytes(right), self.chance.choice(self.secrets))

    def fitting(self):
        """A function that looks at the passphrase in this state."""
        return records.UNLOCK if self.now.locked else self.pick(records.DISABLE, records.SET_PASSPHRASE)

    def passphrase_step(self):
        kind = self.chance.randrange(10)
        any_of = self.pick(records.SET_PASSPHRASE, records.DISABLE, records.UNLOCK)
        if kind < 3:
            self.passphrase_call(self.fitting(), self.near(), self.chance.choice(self.secrets))
        elif kind < 6:
            self.passphrase_call(self.fitting(), self.now.secret, self.chance.choice(self.secrets))
        elif kind < 8:
            self.passphrase_call(any_of, self.pick(self.now.secret, self.near()), self.chance.choice(self.secrets))
        elif kind == 8:
            self.call(self.host(), records.SECURITY)
        elif self.one_in(4):
            self.freeze()
        else:
            self.call(self.host(), any_of, self.some_bytes(self.pick(0, 31, 33, 63, 65, 64, 32)))

    def freeze(self):
        self.call(self.host(), records.FREEZE)
        if self.now.wrong < 10:
            self.now.frozen = True

    def security(self):
        if not self.now.enabled or self.one_in(4):
            self.passphrase_call(records.SET_PASSPHRASE, self.now.secret, self.chance.choice(self.secrets))
        if self.one_in(2):
            self.power()
        for _ in range(self.pick(0, 1, 2, 5, 8, 9, 9, 10, 10, 11, 12)):
            self.passphrase_call(self.fitting(), self.near(), self.chance.choice(self.secrets))
            if self.one_in(15):
                self.between()
        self.call(self.host(), records.SECURITY)
        if self.one_in(5):
            self.freeze()
        self.passphrase_call(self.fitting(), self.now.secret, self.chance.choice(self.secrets))
        self.call(self.host(), records.SECURITY)
        for _ in range(self.chance.randrange(6)):
            self.passphrase_step()
        if self.one_in(2):
            self.power()
            self.call(self.host(), records.SECURITY)

    # ---- The rest ----

    def word(self):
        """A temperature: few of both signs, 0 and 8000h among them, or any."""
        return self.pick(0, 0x8000, 1, 2, 0x8001, 0x8002, 0x7FFF, 0xFFFF, self.chance.getrandbits(16))

    def health(self):
        """Thresholds, readings and what they trip."""
        host = self.host()
        for _ in range(self.pick(1, 2, 4)):
            if self.one_in(2):
                self.call(host, records.SET_THRESHOLD, records.set_threshold(self.chance.randrange(8), self.pick(0, 1, 2, 50, 100),
                                                                             self.word(), self.word()))
            self.reading(self.pick(0, 1, 2, 49, 50, 99, 100), self.word(), self.word())
            self.call(host, records.GET_HEALTH, b"", self.pick(1, 2))

    def thresholds(self):
        word = self.pick(0, 1, 7, 0xFFFF, 0x8000, 0x7FFF, self.chance.getrandbits(16))
        spare = self.pick(0, 1, 50, 99, 100, 100, 101, 101, 128, 255, self.chance.randrange(256))
        enable = self.pick(0, 3, 5, 7, 8, 1 << self.chance.randrange(16), self.chance.getrandbits(16))
        request = records.set_threshold(enable, spare, word, self.chance.getrandbits(16))
        self.call(self.host(), records.SET_THRESHOLD, request)
        self.call(self.host(), records.GET_THRESHOLD, b"", self.pick(1, 2))

    def noise(self):
        function = self.pick(*records.NAMES, *records.NAMES, 0, 0, 1, 3, 11, 18, 24, 25, 32, 256 + records.START, 0xFFFF,
                             self.chance.getrandbits(16))
        revision = self.pick(0, 1, 1, 2, 2, 2, 2, 3, 257, 258, 514, 0xFFFF, self.chance.getrandbits(16))
        right = records.REQUEST_BYTES.get(function, 12)
        length = self.pick(right, right + 1, max(0, right - 1), 0, 536, self.chance.randrange(537))
        before = len(self.log)
        if function == records.START and revision == 2 and length == 0:
            self.start(self.host())
        elif function == records.FREEZE and revision == 2 and length == 0:
            self.freeze()
        else:
            self.call(self.host(), function, self.pick(bytes(length), self.some_bytes(length)), revision)
        assert len(self.log) == before + 1

    def bad(self):
        """A record that would do something, but for one byte or two."""
        now = self.now
        record = self.pick(records.call(1, records.START, module=self.own),
                           records.call(2, records.FINISH, records.finish(now.current, 1), module=self.own),
                           records.event(records.TICK), records.event(records.POWER, self.own), records.reading(100, 1, 0x8001, self.own),
                           records.call(1, records.SEND, records.send(now.current, now.received, b"bad"), module=self.own))
        kind = self.chance.randrange(8)
        if kind == 0:
            record = records.poke(record, 0, self.pick(0, 4, 5, 17, 129, 255))
        elif kind == 1:
            record = records.poke(record, 1, self.pick(0, 5, 6, 128, 255) if record[0] == records.CALL else self.pick(1, 2, 17, 255))
        elif kind == 2:
            record = record[:6] + records.le(self.pick(537, 538, 544, 1024, 0xFFFF), 2) + record[8:]
        elif kind == 3:
            record = records.poke(record, self.pick(543, 542, 100, 300, 13, 8), self.pick(1, 101, 128, 255))
        elif kind == 4:
            record = self.some_bytes(records.RECORD)
        elif kind == 5:
            record = bytes(records.RECORD)
        elif kind == 6:
            record = records.poke(record, 1, records.host_of(record) | self.chance.randrange(16) << 4)      # any module
        else:
            record = records.poke(record, 1, self.chance.randrange(256))
        if records.why_bad(record):
            self.log.append(record)

    def episode(self):
        if self.one_in(2):
            self.own = 1 - self.own
        kind = self.chance.randrange(22)
        if kind < 11:
            self.transfer()
        elif kind < 15:
            self.security()
        elif kind == 15:
            self.pick(self.thresholds, self.health)()
        elif kind == 16:
            self.power()
        elif kind == 17:
            self.tick(self.pick(1, 7, 8, 9))
        else:
            for _ in range(self.chance.randrange(16)):
                self.between()

    def make(self):
        kind = self.chance.randrange(200)
        if kind == 0:
            return self.some_bytes(self.chance.randrange(20 * records.RECORD))
        for _ in range(0 if kind < 5 else self.pick(1, 2, 3, 4, 6, 9)):
            self.episode()
        if kind == 5:
            self.tick(self.pick(1000, 1500))
            self.episode()
        if self.one_in(4):
            self.failing()
        log = b"".join(self.log)
        if self.one_in(3):
            record = self.chance.choice(self.log) if self.log else records.event(records.TICK)
            log += record[:self.pick(1, 2, 8, 10, 543, self.chance.randrange(1, records.RECORD))]
        return log


def made(seed, number):
    return Maker(random.Random(f"{seed}/{number}")).make()


# ---- A second log ----

def turned(chance, log, at):
    log[at] ^= 1 << chance.randrange(8)


def records_in(log):
    return len(log) // records.RECORD


def change(chance, log):
    """Changes a log in one way: bytes turned, most of them in front of the request; records dropped, or added; a cut; a short tail."""
    kind = chance.randrange(8)
    if kind < 3 and log:
        for _ in range(chance.choice((1, 1, 2, 20))):
            inside = chance.choice((chance.randrange(9), chance.randrange(records.RECORD)))
            turned(chance, log, min(chance.randrange(records_in(log) + 1) * records.RECORD + inside, len(log) - 1))
    elif kind == 3 and records_in(log):
        at = chance.randrange(records_in(log)) * records.RECORD
        del log[at:at + records.RECORD * chance.choice((1, 1, 2))]
    elif kind == 4:
        at = chance.randrange(records_in(log) + 1) * records.RECORD
        log[at:at] = records.event(chance.choice((records.TICK, records.POWER, 9))) * chance.choice((1, 1, 3))
    elif kind == 5:
        edge = chance.randrange(records_in(log) + 1) * records.RECORD
        del log[chance.choice((edge, edge + chance.randrange(10), chance.randrange(len(log) + 1))):]
    elif kind == 6:
        log += bytes(chance.randrange(3) for _ in range(chance.choice((1, 8, 9, 543))))


def pair(seed, number):
    """Log N of a seed and one that is a few changes away, or a quite different one; in either order. Now and then both are so long that the list is full."""
    chance = random.Random(f"pair {seed}/{number}")
    one = bytearray(made(seed, number))
    if chance.randrange(30) == 0 and one:
        one = (one * (1002 * records.RECORD // len(one) + 1))[:1002 * records.RECORD]
    other = bytearray(one)
    if chance.randrange(30) == 0:
        other = bytearray(made(seed, number + 1))
    if records_in(one) > 999:
        for place in range(chance.choice((999, 1000, 1001, 1002))):
            if place < records_in(other):
                turned(chance, other, place * records.RECORD + chance.randrange(records.RECORD))
    for _ in range(chance.choice((0, 1, 1, 2, 3))):
        change(chance, other)
    if chance.randrange(4) == 0:
        change(chance, one)
    return (bytes(one), bytes(other)) if chance.randrange(2) else (bytes(other), bytes(one))
