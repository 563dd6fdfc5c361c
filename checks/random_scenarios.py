"""Random scenarios for checks/java.py: `draw(chance)` gives one that meets no difference by design.

A call is drawn for the state that the calls before have led to by checks/rules.py, so that most are ones that
their thread may make: who holds releases, who waits is interrupted, few ask for more than there ever is.
"""
import scenarios
from scenarios import Scenario

# How calls wait, each with its timeout.
WAYS = ("",) * 3 + ("-interruptible",) * 3 + ("-timed long",) * 2 + ("-timed short",) + ("-timed 0",) * 3
OF_LATCH = ("-interruptible", "-timed long", "-timed short", "-timed 0")


def part_of(chance):
    """An object part: small numbers, and those at which permits end."""
    policy, seats = chance.choice(("fair", "nonfair")), chance.choice((2, 3, 3, 4, 4, 5, 6))
    kind = chance.choice(("lock",) * 3 + ("rw",) * 4 + ("semaphore",) * 2 + ("latch",))
    if kind == "latch":
        return f"latch seats {seats} count {chance.choice((0, 1, 1, 2, 3))}"
    if kind == "semaphore":
        permits = chance.choice((0, 1, 1, 2, 3, 5) * 2 + (-2, -1, 2147483646, 2147483647, -2147483648))
        return f"semaphore {policy} seats {seats} permits {permits}"
    return f"{kind} {policy} seats {seats} conditions {chance.choice((0, 1, 1, 2, 3))}"


def waiting(chance, name, words, ways=WAYS):
    """A call that may wait, in some way."""
    way, _, time = chance.choice(ways).partition(" ")
    return " ".join(filter(None, [name + way, words, time]))


def acquire(chance, mode, n):
    words = f"{mode} {n}"
    return f"try {words}" if chance.random() < 0.2 else waiting(chance, "acquire", words)


def call_on_condition(chance, play):
    """An await, or where several sleep a signal."""
    at = chance.choice((0, chance.randrange(play.header.conditions)))
    if chance.random() < (0.6 if len(play.state.sleepers[at]) > 1 else 0.2):
        return f"{chance.choice(('signal', 'signalall'))} {at}"
    return waiting(chance, "await", str(at))


def call_of_lock(chance, play, seat, of_conditions):
    """A call of a lock or a read-write lock. Few readers ask to write, since they wait for themselves. An
    owner's calls are often of conditions."""
    own, conditions = play.state.holds[seat], play.header.conditions
    reads = play.header.kind == "rw"
    mode = chance.choice("xsss") if reads else "x"
    way = chance.random()
    if conditions and way < (of_conditions if own["x"] else 0.03):
        return call_on_condition(chance, play)
    if own["x"] or own["s"]:
        if way < (0.85 if own["s"] else 0.7):
            return f"give {chance.choice([held for held in 'xs' if own[held]])} 1"
        if reads and not own["x"] and way < 0.95:
            mode = "s"
    elif way < 0.08:
        return f"give {mode} 1"
    return acquire(chance, mode, 1)


def call_of_semaphore(chance, play, _seat, _of_conditions):
    """A call of a semaphore: most ask for few permits."""
    n = chance.choice((0, 1, 1, 1, 1, 2, 2, 3))
    if abs(play.state.free) > 1000000 and chance.random() < 0.5:
        n = chance.choice((2147483645, 2147483646, 2147483647))
    way = chance.random()
    if way < 0.06:
        return "drain"
    return f"give s {n}" if way < (0.5 if play.state.line else 0.25) else acquire(chance, "s", n)


def call_of_latch(chance, _play, _seat, _of_conditions):
    return "give s 1" if chance.random() < 0.35 else waiting(chance, "acquire", "s 1", OF_LATCH)


CALLS = {"lock": call_of_lock, "rw": call_of_lock, "semaphore": call_of_semaphore, "latch": call_of_latch}


def interrupted(chance, play):
    """Whom to interrupt: often the first of the queue, or one that was signalled."""
    line = play.state.line
    back = [arrival.seat for arrival in line if arrival.back]
    return chance.choice([arrival.seat for arrival in line[:1]] * 4 + back * 2 + list(play.waiting) +
                         [chance.randrange(play.header.seats)])


def next_call(chance, play, can_hold, of_holders, of_conditions):
    """A call of an idle thread, often of a holder and of a condition; or an interrupt, or a hold."""
    seats = range(play.header.seats)
    idle = [seat for seat in seats if seat not in play.waiting]
    if can_hold and play.waiting and chance.random() < (0.2 if play.held else 0.1):
        return holding(chance, play)
    if not idle or chance.random() < (0.25 if len(play.state.line) > 1 else 0.1):
        return f"interrupt {interrupted(chance, play)}"
    holders = [seat for seat in idle if any(play.state.holds[seat].values())]
    seat = chance.choice(holders if holders and chance.random() < of_holders else idle)
    return f"{seat} {CALLS[play.header.kind](chance, play, seat, of_conditions)}"


def holding(chance, play):
    """A line that holds a thread, most often the first of the queue, or lets all go on."""
    if play.held:
        return "go"
    line = [arrival.seat for arrival in play.state.line]
    return f"hold {chance.choice(line[:1] * 3 + list(play.waiting))}"


def played(part, calls):
    play = scenarios.Play(scenarios.header_of(Scenario("", [], part, calls)))
    for call in calls:
        play.make(call)
    return play


def draw(chance, can_hold=True, has_limit=True):
    """A random scenario. A few of a read-write lock begin at a limit of holds."""
    part, calls = part_of(chance), []
    if has_limit and part.startswith("rw") and chance.random() < 0.01:
        calls.append(f"0 acquire {chance.choice('xs')} 1 * {chance.choice((65534, 65535))}")
    play, often = played(part, calls), (chance.choice((0.1, 0.3, 0.5)), chance.choice((0.2, 0.5, 0.8)))
    for _ in range(chance.choice((6, 12, 20, 20, 30))):
        call = next_call(chance, play, can_hold, *often)
        play.make(call)
        if play.designs:
            play = played(part, calls)
        else:
            calls.append(call)
    return Scenario("", [], part, calls)
