# SPDX-License-Identifier: MIT
"""Cases of clients that are loops, or that have numbers at random. tools/calls runs them with the files beside it.

A case is a function, or a row of a table with what a function takes. Its text says what it shows. It yields lines as
the files have them: what is asked, and behind two spaces the reply that is wanted. Before them stands the line that
opens the table, where the case has a shape for that. The numbers at random are the same in each run. What is wanted was
worked out by hand, or by a model that stands here.
"""

from collections import OrderedDict

WHOLE = 1 << 64
ANY = "*"
HIT_OR_MISS, HITS_AND_MISSES = r"/ (FOUND|MISS) 1", r"/ FOUND \d+ MISS \d+"
CASES = []


def case(**shape):
    """The function below is a case, whose table has this shape."""
    def kept(function):
        CASES.append((function.__name__, shape, function.__doc__, function, []))
        return function
    return kept


def cases(function, *rows):
    """A case for each row: its name, the table's shape, what it shows, and what the function takes."""
    CASES.extend((name, shape, says, function, arguments) for name, shape, says, *arguments in rows)


class Draws:
    """Numbers at random, the same ones in each run."""

    def __init__(self, seed):
        self.state = seed

    def below(self, most):
        self.state = (self.state * 6_364_136_223_846_793_005 + 1_442_695_040_888_963_407) % WHOLE
        return (self.state >> 32) * most >> 32

    def skewed(self, most):
        """Small numbers come more often: of 1,000, half of all draws are of a twentieth."""
        return self.below(self.below(self.below(most) + 1) + 1)


def opened(**words):
    return "open " + " ".join(f"{name}={value}" for name, value in words.items()) + "  OPEN"


def listed(numbers):
    return " ".join(map(str, numbers))


# What fits

FIFTY = {"buckets": 64, "overflow": 64, "segments": 16, "rows": 8}
WAYS = ("put", "set", "replace", "cas")


def updated(still, numbers):
    yield f"put 0..{numbers}  STORED {numbers}"
    for turn in range(100):
        yield f"store {still}..{numbers} by={WAYS[turn % 4]}  STORED {numbers - still}"
    yield "stats keys_evicted  0", f"found 0..{numbers}  {numbers}"


cases(
    updated,
    ("dead_rows_go_before_keys_that_nobody_reads", FIFTY,
     "50 keys in 128 rows: what died by updates goes, and nothing else.", 40, 50),
    ("dead_rows_are_found_among_many_segments", {"buckets": 512, "overflow": 512, "segments": 400, "rows": 2},
     "300 keys in 800 rows of so many segments that no single look goes over all of them.", 260, 300))


@case(**FIFTY)
def half_dead_segments_are_cleared_and_no_key_goes():
    """56 keys that nobody updates, and after each of them one of eight others: half of all rows are dead then, but no
    segment is. No key goes for the updates that follow, and few items move."""
    for number in range(56):
        yield f"put {number} {56 + number % 8}  STORED 2"
    yield ["put 56..64  STORED 8"] * 50
    yield "stats keys_evicted  0", "stats items_kept  < 40", "found 0..64  64"


@case(**FIFTY)
def what_was_deleted_goes_before_keys_that_nobody_reads():
    """Sessions begin and end, one after another, beside 40 keys that stay."""
    yield "put 0..40  STORED 40"
    for number in range(40, 1_000):
        yield f"put {number}  STORED 1", f"delete {number}  DELETED 1"
    yield "stats keys_evicted  0", "found 0..40  40"


@case(**FIFTY)
def room_is_made_without_a_clearing():
    """To make room goes over no rows: it refills a free segment, or finds that a row is left."""
    for number in range(1_000):
        yield "stats rows  * BEFORE", "make_room  ROOM", "make_room  ROOM", "stats rows  = BEFORE"
        yield f"set {number}  STORED 1"


@case(**FIFTY)
def what_is_gone_is_counted():
    """Each number is put once: it can be read, or it is counted as evicted. Each row in use was stored into, or
    something moved there."""
    for number in range(1_000):
        yield f"put {number}  STORED 1", f"found {number // 2}  {ANY}"
    yield "stats keys_evicted  * EVICTED", "stats items_kept  * KEPT", "stats segments_refilled  * REFILLED"
    yield "stats stored  <= 8 * REFILLED - KEPT", "stats stored  >= 8 * REFILLED - 128 - KEPT"
    yield "named  = 1000 - EVICTED", "found 0..1000  = 1000 - EVICTED"


@case(keys=1_600, clients=4, writers=1)
def a_small_cache_has_room_whoever_stores():
    """Four clients update 200 keys, each for a long time while the others wait."""
    draws = Draws(3)
    for client in range(4):
        yield f"c{client} put 0..200  STORED 200"
        yield f"c{client} put {listed(draws.below(200) for _ in range(1_000))}  STORED 1000"
        yield f"c{client} found 0..200  200", f"c{client} stats keys_evicted  0"


# What is read

FEW_SEGMENTS = {"buckets": 128, "overflow": 128, "segments": 16, "rows": 8}
MANY_SEGMENTS = {"buckets": 128, "overflow": 128, "segments": 32, "rows": 2}
ONE_ROW = {"buckets": 128, "overflow": 128, "segments": 16, "rows": 1}


def used_longest_ago(numbers, room):
    """The hits of a cache of so many keys that gives up the one used longest ago, each number for itself."""
    cache, hits = OrderedDict(), []
    for number in numbers:
        hits.append(number in cache)
        cache[number] = True
        cache.move_to_end(number)
        if len(cache) > room:
            cache.popitem(last=False)
    return hits


def skewed_requests(once, room, begin, others):
    """8,000 requests, of which such a cache hits so many from the begin on."""
    draws, requests = Draws(7), []
    for at in range(8_000):
        number = draws.skewed(1_000)
        requests.append(at + 100_000 if once and draws.below(10) < once else number)
    hits = sum(used_longest_ago(requests, room)[begin:])
    assert hits == others, hits
    return requests


def more_is_hit(once, others):
    requests = skewed_requests(once, 128, 4_000, others)
    yield f"ask {listed(requests[:4_000])}  {HITS_AND_MISSES}", f"ask {listed(requests[4_000:])}  > {others}"


cases(
    more_is_hit,
    ("more_is_hit_of_skewed_requests", FEW_SEGMENTS,
     "Of 4,000 requests a cache of as many keys that gives up the one used longest ago hits 2,012. "
     "The client hits more.", 0, 2_012),
    ("more_is_hit_beside_keys_that_come_once", FEW_SEGMENTS,
     "Where three in ten are of keys that come once, such a cache hits 1,089. The client hits more.", 3, 1_089))


def moves(reads, least, most):
    for number in range(1_000, 3_000, 8):
        yield f"put {number} read={reads}  STORED 1", f"put {number + 1}..{number + 8}  STORED 7"
    yield f"stats items_kept  >= {least}", f"stats items_kept  <= {most}"


cases(
    moves,
    ("what_is_not_read_hardly_moves", MANY_SEGMENTS,
     "Two thousand new numbers, of which none is read: two of them move at most.", 0, 0, 2),
    ("what_is_read_once_moves_once", MANY_SEGMENTS,
     "An item that is new moves on if it was read once. To move again it needs one hit more. 250 are read.",
     1, 225, 262),
    ("what_is_read_twice_moves_three_times", MANY_SEGMENTS,
     "After each second move an item needs one hit more. So it moves three times if it was read twice.", 2, 675, 777))


@case()
def what_was_put_lately_moves_more_often():
    """A key that was put lately needs less to move on, if it comes again, than one that is new."""
    for others, moved in ((512, "* LONG_AGO"), (64, "* LATELY")):
        yield opened(**MANY_SEGMENTS)
        for number in range(1_000, 5_000, 8):
            # What is missed is put again, and read once.
            yield f"put {number}  STORED 1", f"ask {number - others} read=1  {HIT_OR_MISS}"
            yield f"put {number + 1}..{number + 8}  STORED 7"
        yield f"stats items_kept  {moved}"
    yield "stats items_kept  > 3 * LONG_AGO - LATELY"


def hits_after(others, least, most):
    for number in range(600):
        yield f"put {number}  STORED 1", f"found {number - others if number >= others else 4_294_967_294}  {ANY}"
    yield f"stats hits  >= {least}", f"stats hits  <= {most}"


PROBATION = {"buckets": 128, "overflow": 128, "segments": 64, "rows": 2}
cases(
    hits_after,
    ("a_twelfth_of_the_segments_waits_for_a_read", PROBATION,
     "A twelfth of 64 segments is on probation: five, which have ten rows. One of these is cleared, and so a number is "
     "there after eight others.", 8, 580, 600),
    ("a_number_is_mostly_gone_after_ten_others", PROBATION,
     "For the same reason a number is mostly gone after ten others.", 10, 0, 300))


def segments_of_one_row(once, others):
    yield f"ask {listed(skewed_requests(once, 16, 0, others))}  {HITS_AND_MISSES}"
    yield f"stats hits  > {others}", "stats items_kept  * KEPT", "stats stored  > 3 * KEPT"


cases(
    segments_of_one_row,
    ("segments_of_one_row_keep_what_is_read", ONE_ROW,
     "A cache of sixteen keys that gives up the one used longest ago hits 708 times. Where three segments of one row "
     "are held ready the client hits more, and moves fewer items than one for each third put.", 0, 708),
    ("segments_of_one_row_keep_what_is_read_beside_keys_that_come_once", ONE_ROW,
     "The same where three in ten are of keys that come once: such a cache hits 378 times.", 3, 378))


@case()
def few_keys_go_beside_updates():
    """With a tenth, a fifth and three tenths of updates 1,218 keys go from 128 rows. Where segments were cleared for
    their dead rows less often, or more often, a fifth more would go."""
    for updates, evicted in ((10, "* FIRST"), (20, "* SECOND"), (30, "< 1350 - FIRST - SECOND")):
        yield opened(**FEW_SEGMENTS)
        draws = Draws(7)
        for _ in range(8_000):
            number = draws.skewed(200)
            yield f"put {number}  STORED 1" if draws.below(100) < updates else f"ask {number}  {HIT_OR_MISS}"
        yield f"stats keys_evicted  {evicted}"


@case(buckets=128, overflow=128, segments=5, rows=4)
def what_is_read_moves_to_main_segments_alone():
    """New numbers in five segments, each read twice. What was read moves to main segments alone, so that it moves
    twice; if it also went where puts go, it would move three times."""
    for number in range(1_000):
        yield f"put {number}  STORED 1", f"get {number} {number}  FOUND 2"
    yield "stats items_kept  > 1800", "stats items_kept  < 2200"


def few_with_a_time(few):
    yield "stats misses  0"
    for at in range(4_000):
        yield f"now {at}  OK", f"put {at + 10_000} for=640000  STORED 1"
        if at % 12 == 0:
            yield f"ask {at // 12 % few} for=6400  {HIT_OR_MISS}"
    yield "stats misses  <= 40"


cases(
    few_with_a_time,
    ("few_keys_with_a_time_of_their_own_are_kept", {**ONE_ROW, "rows": 2},
     "Others come and go, and every twelfth time one of three numbers is asked for, which have a shorter time to live. "
     "What is read moves where puts with its deadline go if no main segment has that deadline. Else each of these 334 "
     "would be missed.", 3),
    ("few_keys_with_a_time_of_their_own_are_kept_in_segments_of_three_rows", {**ONE_ROW, "rows": 3},
     "The same with four numbers, and segments of three rows.", 4))


def puts_on_a_miss():
    state = 1
    for _ in range(3_000):
        first = (state * 1_664_525 + 1_013_904_223) % (1 << 32)
        state = (first * 1_664_525 + 1_013_904_223) % (1 << 32)
        yield ((first >> 16) * (state >> 16) >> 23) % 512


@case(**FIFTY)
def a_put_on_a_miss_goes_over_few_rows():
    """Numbers below 512 are read, small ones more often, and put where they are missed. No put goes over more than
    eight rows, or refills more than two segments."""
    yield f"ask {listed(puts_on_a_miss())}  {HITS_AND_MISSES}"
    yield "stats items_kept  > 0", "stats keys_evicted  > 0", "stats most_rows  <= 8", "stats most_refills  <= 2"


def asked_again_and_again(keep, *wanted):
    yield keep
    yield "put 1000  STORED 1"
    for number in range(0, 300, 3):
        yield f"put {number}..{number + 3}  STORED 3", f"found 1000  {ANY}"
    yield wanted


SIXTY_FOUR = {"buckets": 64, "overflow": 0, "segments": 16, "rows": 4}
KEEP_NOTHING = ["keep_nothing  OK"]
cases(
    asked_again_and_again,
    ("what_is_read_is_kept_from_the_start", SIXTY_FOUR,
     "A key that is read again and again stays while 300 others go through 64 rows.", [],
     "stats misses hits stored  0 100 301", "stats items_kept  > 0", f"stats keys_evicted  >= {301 - 64}"),
    ("a_client_that_keeps_nothing_misses_it", SIXTY_FOUR,
     "By turns the key goes with its segment, once 64 rows were used: at the 64th of the others.", KEEP_NOTHING,
     "stats misses hits items_kept  79 21 0"))


# Times to live

TIMES = {"buckets": 128, "overflow": 64, "segments": 32, "rows": 8}
SHORT, LONG = 6_400, 64_000
# The numbers below 80 whose time is short, and long.
EVEN, ODD = listed(range(0, 80, 2)), listed(range(1, 80, 2))


def of_two_times(short, long):
    for number in range(0, 80, 2):
        yield f"put {number} for={short}  STORED 1", f"put {number + 1} for={long}  STORED 1"


def found_at(*rows):
    """At each moment so many of these keys are found."""
    for now, which, found in rows:
        yield f"now {now}  OK", f"found {which}  {found}"


@case(**TIMES)
def what_has_expired_is_cleared_at_once():
    """While many segments are free, what has expired is cleared all the same: some rows at each put, though each item
    was read and would move."""
    yield f"put 0..64 for={SHORT} read=1  STORED 64", f"now {SHORT}  OK", f"put 100..132 for={LONG}  STORED 32"
    yield "named  32", "stats items_kept keys_evicted  0 64"


@case(**TIMES)
def what_has_expired_goes_first_where_few_segments_are_free():
    """Half of the keys have expired when a put takes one of the last two free segments, and begins to clear: what has
    expired, and not the oldest, which lives."""
    yield f"put 0..120 for={LONG}  STORED 120", f"put 120..240 for={SHORT}  STORED 120"
    yield f"now {SHORT}  OK", f"put 1000..1016 for={LONG}  STORED 16", "found 0..120  120"


@case(**TIMES)
def deadlines_are_fine_while_many_segments_are_free():
    """Fine deadlines while many segments are free, and coarse ones when few are. Up to half of a segment, the next
    items go where the first one went."""
    yield "now 100  OK", f"put 0 for={SHORT}  STORED 1", "until  6500", "now 250  OK"
    for number, until in ((1, 6_500), (2, 6_500), (3, 6_500), (4, 6_600)):
        yield f"put {number} for={SHORT}  STORED 1", f"until  {until}"


@case(buckets=128, overflow=64, segments=64, rows=8)
def deadlines_are_fine_while_more_than_one_segment_in_eight_is_free():
    """Each put comes at another moment, a sixty-fourth of the time after the one before. While more than eight of 64
    segments are free it has a deadline of its own, however few rows are used. Then what comes next goes where the last
    one went."""
    for number in range(57):
        yield f"now {100 * number}  OK", f"put {number} for={SHORT}  STORED 1"
        yield f"until  {100 * min(number, 55) + SHORT}"


@case(**TIMES)
def deadlines_are_of_eighths_once_few_segments_are_free():
    """Four segments are free, one in eight. So a new one has a deadline of eighths."""
    yield "now 1000  OK"
    for number in range(28 * 8):
        yield f"put {number} for={SHORT}  STORED 1", "until  7400"
    yield "now 1150  OK", f"put 224 for={SHORT}  STORED 1", "until  7200"


@case(**TIMES)
def each_time_to_live_fills_segments_of_its_own():
    """40 items of each time take five segments."""
    yield from of_two_times(SHORT, LONG)
    yield "stats segments_refilled  10"


def kept_up_to_its_deadline(moves_on):
    for number in range(2, 1_202):
        yield f"now {number if moves_on else 0}  OK", f"put {number} for={(SHORT, LONG)[number % 2]}  STORED 1"
        if number % 4 == 0:
            asked = number // 4 % 2
            yield f"ask {asked} for={(SHORT, LONG)[asked]}  {HIT_OR_MISS}"
    yield "stats misses  <= 6"
    yield from found_at((SHORT - 1, "0 1", 2), (SHORT, "0", 0), (LONG - 1, "1", 1))


cases(
    kept_up_to_its_deadline,
    ("what_is_read_is_kept_up_to_its_own_deadline", TIMES,
     "Two numbers are asked for again and again, and put if they are missed, while many others come, of their times to "
     "live. Each lives up to its own deadline.", False),
    ("what_is_read_is_kept_while_the_clock_moves_on", TIMES, "The same while the clock moves on at each put.", True))


def given_up(now, left):
    yield f"put 0..8 for={LONG}  STORED 8", f"put 8..16 for={SHORT}  STORED 8"
    for times in range(3, 33):
        yield f"live {times * LONG}  OK", "make_room  ROOM"
    yield "stats keys_evicted  0", f"now {now}  OK", f"live {2 * LONG}  OK", "make_room  ROOM"
    yield "stats keys_evicted  8", "now 0  OK", "found 0..16  8", f"found {left}  8"


cases(
    given_up,
    ("the_oldest_is_given_up", TIMES, "Where no segment is free one is given up whole: the oldest.", 0, "8..16"),
    ("what_has_expired_is_given_up", TIMES, "Or one that has expired, though it isn't the oldest.", SHORT, "0..8"))


@case(**TIMES)
def an_item_lives_for_its_own_time():
    """Two times to live in one client: each item lives for its own, rounded down by an eighth at most."""
    yield "now 1000  OK"
    yield from of_two_times(300, 3_600)
    yield from found_at((1_262, EVEN, 40), (1_300, ODD, 40), (1_300, EVEN, 0), (4_149, ODD, 40), (4_600, ODD, 0))


@case(**TIMES)
def an_item_lives_for_seven_eighths_whenever_it_is_put():
    """The clock goes on between the puts, over many steps of a deadline."""
    for number in range(100):
        now = 10_000 + 41 * number
        yield f"now {now}  OK", f"put {number} for=300  STORED 1"
        yield from found_at((now + 262, number, 1), (now + 300, number, 0))


@case(**TIMES)
def what_is_put_for_good_stays_beside_what_expires():
    """Without a time to live nothing expires, beside what does."""
    for number in range(8):
        yield f"put {number}  STORED 1", f"put {100 + number} for=300  STORED 1"
    yield from found_at((4_294_967_294, "0..8", 8), (300, "100..108", 0))


@case(**TIMES)
def what_has_expired_goes_before_what_lives():
    """64 items live on, while many others expire beside them: none of those that live is evicted."""
    yield "put 0..64 for=1000000  STORED 64"
    for number in range(2_000):
        yield f"now {8 * number}  OK", f"put {1_000 + number} for=300  STORED 1"
    yield from found_at((16_000, "0..64", 64))


@case(**TIMES)
def a_rare_time_to_live_is_kept():
    """One put in a thousand lives longer than the others: it isn't given up with them."""
    yield "put 0 for=3600  STORED 1"
    for number in range(1, 1_000):
        yield f"now {number}  OK", f"put {number} for=100  STORED 1"
    yield from found_at((3_000, "0", 1))


@case(**TIMES)
def a_client_without_queues_keeps_the_times_apart():
    """A client that keeps nothing has segments of several times too."""
    yield KEEP_NOTHING
    yield from of_two_times(300, 3_600)
    yield "stats segments_refilled  10"
    yield from found_at((262, EVEN, 40), (300, EVEN, 0), (3_149, ODD, 40))


@case(**TIMES)
def an_open_segment_is_filled_before_another_is_begun():
    """A put may store into a segment that was begun for a longer time, if its deadline suits. Where that one is full,
    another open one is filled before a third is begun."""
    yield KEEP_NOTHING
    yield "put 0 for=1000  STORED 1", "put 1..9 for=900  STORED 8", "stats segments_refilled  2"
    yield "put 9 for=1000  STORED 1", "stats segments_refilled  2"


def written_early(name, first, second):
    yield "put 0  STORED 1", "live 80  OK", "now 1000  OK", "make_room  ROOM", "now 1010  OK"
    yield f"{name} {first}  STORED 1"
    yield from found_at((1_079, first, 1), (1_080, first, 0))
    yield "now 1011  OK", f"{name} {second}  NO_ROOM 1", "stats no_room  1"
    yield "make_room  ROOM", f"{name} {second}  STORED 1"
    yield from found_at((1_089, second, 1), (1_090, second, 0))
    yield "stats keys_evicted  0"


cases(
    written_early,
    ("a_set_has_no_room_where_its_item_expires_early", TIMES,
     "The first segment expires at 1080. An item of 1010 lives for 70 in it, and one of 1011 would for 69. So it goes "
     "into one that expires at 1090.", "set", 0, 0),
    ("an_add_has_no_room_where_its_item_expires_early", TIMES, "The same of an add.", "add", 1, 2),
    ("a_replace_has_no_room_where_its_item_expires_early", TIMES, "The same of a replace.", "replace", 0, 0),
    ("a_cas_has_no_room_where_its_item_expires_early", TIMES, "The same of a cas.", "cas", 0, 0))


def adds_for_two_times(keep):
    yield keep
    for number in range(80):
        yield f"live {3_600 if number % 2 else 80}  OK", f"store {number} by=add  STORED 1"
    yield "stats segments_refilled  10"
    yield from found_at((79, EVEN, 40), (80, EVEN, 0), (3_149, ODD, 40), (3_600, ODD, 0))


cases(
    adds_for_two_times,
    ("adds_for_two_times_fill_segments_of_their_own", TIMES, "40 items of each time fill five segments.", []),
    ("adds_for_two_times_fill_segments_of_their_own_by_turns", TIMES, "The same where the client keeps nothing.",
     KEEP_NOTHING))


def drawn_client(number):
    return f"c{number * 2_654_435_769 % (1 << 32) >> 30}"


@case(keys=1_000, clients=4)
def an_event_is_new_once_in_its_time():
    """Each moment has an event. It is seen again until seven eighths of its time are over, each time by one of four
    clients, and once more when all of it is."""
    for event in range(1_000):
        now, client = 80 + event, drawn_client(80 + event)
        yield f"{client} now {now}  OK", f"{client} live 80  OK", f"{client} store {now} by=add  STORED 1"
        yield [f"{client} store {now - later} by=add  NOT_STORED 1" for later in (1, 7, 32, 69) if later <= event]
        yield f"{client} store {event} by=add  STORED 1"


@case(keys=1_000, clients=4)
def each_event_is_new_once():
    """Each of a thousand events is seen by four clients, in several orders. One of them takes it for new."""
    for round in range(8):
        for number in range(1_000):
            client, event = drawn_client(number + (round << 10)), (number * 7_919 + round) % 1_000
            yield f"{client} store {event} by=add  {'NOT_STORED' if round else 'STORED'} 1"


LOCKED = {"buckets": 1_024, "overflow": 0, "clients": 2, "locker": 1, "segments": 32, "rows": 8}


@case(**LOCKED)
def a_put_gives_up_another_that_has_expired():
    """A segment that has expired, but of which another pass has the bucket of a key locked, hides no other that has
    expired: a put that finds no room gives up that one, and no item that lives."""
    yield f"put 0..8 for={LONG}  STORED 8", f"put 8..24 for={SHORT}  STORED 16"
    for times in range(3, 32):
        yield f"live {times * LONG}  OK", "make_room  ROOM"
    yield f"now {SHORT}  OK", "lock 16  LOCKED", f"put 100 for={2 * LONG}  STORED 1", "unlock  UNLOCKED"
    yield "now 0  OK", "found 0..8  8", "found 8..16  0", "found 16..24  8"


@case(**LOCKED)
def puts_clear_another_that_has_expired():
    """Of 30 full segments the last two have expired. Puts clear the first of these while the other is refused, and the
    other from the next moment on."""
    yield f"put 0..224 for={LONG}  STORED 224", f"put 224..240 for={SHORT}  STORED 16", f"now {SHORT}  OK"
    yield "lock 232  LOCKED", f"put 1000..1008 for={LONG}  STORED 8", "unlock  UNLOCKED"
    yield "now 0  OK", "found 0..224  224", "found 224..232  0", "found 232..240  8"
    yield f"now {SHORT + 1}  OK", f"put 1008..1016 for={LONG}  STORED 8"
    yield "now 0  OK", "found 0..224  224", "found 232..240  0"


# Several clients

THOUSAND = {"keys": 1_000, "clients": 4}


def put_by_turns(clients, numbers):
    yield [f"c{number % clients} put {number}  STORED 1" for number in numbers]


def shared(rows, clients, first, keys, is_random):
    yield from put_by_turns(clients, range(first, keys))
    draws = Draws(7)
    for at in range(3 * rows):
        for turn in range(clients):
            client, number = (draws.below(clients), draws.below(first)) if is_random else (turn, at % first)
            yield f"c{client} put {number}  STORED 1"
    yield f"c0 found {first}..{keys}  {keys - first}"


cases(
    shared,
    ("updates_by_turns_cost_no_other_key", {"keys": 800, "clients": 2, "writers": 1},
     "Ten keys by two clients by turns, with room for eight times a hundred keys in each, as a small cache has. No "
     "client sees its own rows of them die. The other keys stay, though nobody reads them.", 1_600, 2, 10, 90, False),
    ("updates_by_turns_cost_no_other_key_in_two_rows_a_key", THOUSAND,
     "The same with two rows for each of a thousand keys, and four clients.", 512, 4, 10, 1_000, False),
    ("updates_at_random_cost_no_other_key", {"keys": 1_000, "clients": 8},
     "Thirty keys by eight clients at random.", 256, 8, 30, 1_000, True))


def updates(is_skewed):
    yield from put_by_turns(4, range(1_000))
    draws = Draws(7)
    for at in range(40_000):
        number = draws.skewed(1_000) if is_skewed else draws.below(1_000)
        yield f"c{draws.below(4)} update {number} by={WAYS[(at + 1) % 4]}  STORED 1"


cases(
    updates,
    ("no_update_of_keys_at_random_loses_one", THOUSAND,
     "A cache for a thousand keys keeps each of them, however often its value is replaced, by four clients.", False),
    ("no_update_of_some_keys_more_often_loses_one", THOUSAND, "The same where few keys are updated often.", True))


@case(keys=2_000, clients=2)
def no_update_beside_a_held_item_loses_one():
    """One client stores all keys and updates them, while another one holds the item of one of them."""
    yield "c0 put 0..1000  STORED 1000", "c1 hold 0  HOLDING"
    draws = Draws(7)
    for at in range(40_000):
        yield f"c0 update {draws.below(1_000)} by={WAYS[(at + 1) % 4]}  STORED 1"
    yield "release  RELEASED 00000000"


@case(**THOUSAND)
def what_is_deleted_makes_room():
    """A key at random is deleted, or else updated, or added if it is gone. Each call finds what was there before."""
    yield from put_by_turns(4, range(1_000))
    draws, gone = Draws(11), set()
    for _ in range(40_000):
        number, client, is_deleted = draws.skewed(1_000), draws.below(4), draws.below(10) == 0
        if is_deleted:
            yield f"c{client} delete {number}  {'NOT_FOUND' if number in gone else 'DELETED'} 1"
            gone.add(number)
        else:
            way = "store {} by=add" if number in gone else "update {} by=put"
            yield f"c{client} {way.format(number)}  STORED 1"
            gone.discard(number)


# Full buckets

@case(buckets=1, overflow=0, segments=8, rows=2)
def each_put_costs_one_key():
    """Each put into a full bucket costs one key, however many there are."""
    for number in range(26):
        yield f"put {number} for=8000  STORED 1", f"found {number}  1", f"found 0..26  {min(number + 1, 7)}"


PRIME = 0x100000001B3


def hashed(number, length):
    """FNV-1a of the first bytes of a number."""
    of = 0xCBF29CE484222325
    for byte in number.to_bytes(4, "little")[:length]:
        of = (of ^ byte) * PRIME % WHOLE
    return of


def chosen_for(bucket, buckets, first, count):
    """Numbers whose keys have this bucket, each by its last byte."""
    before, found = bucket * pow(PRIME, -1, buckets), []
    while len(found) < count:
        last = (hashed(first, 3) ^ before) % buckets
        if last < 256:
            found.append(first + (last << 24))
        first += 1
    return found


@case(buckets=4_096, overflow=4_096, segments=64, rows=313)
def chosen_keys_cost_only_keys_of_their_bucket():
    """A thousand puts of keys that were chosen for one bucket cost the keys of that bucket at most."""
    keys, buckets = 10_000, 4_096
    bucket = hashed(0, 4) % buckets
    mine = [number for number in range(keys) if hashed(number, 4) % buckets == bucket]
    others = sorted(set(range(keys)) - set(mine))
    chosen = chosen_for(bucket, buckets, keys, 1_000)
    assert all(hashed(number, 4) % buckets == bucket for number in chosen)
    yield f"put 0..{keys}  {ANY}", f"found {listed(mine)}  * MINE", f"found {listed(others)}  * OTHERS"
    yield f"put {listed(chosen)}  > 0", f"found {listed(others)}  = OTHERS", f"found {listed(mine)}  >= MINE - 25"


# Several keys at a time

@case(buckets=1, overflow=3, segments=2, rows=32)
def each_answer_has_the_place_of_its_key():
    """Keys of a chain of four buckets: more than two pieces, hits and misses in turn, and each of the first ones
    twice."""
    numbers = [3, 40, 3, 0, 24, 25, 24, 0, 40, 7, 7, 7, 1, 41, 2, 42, 4, 43, 5, 44, 6, 45, 8, 46, 9, 47, 10, 48, 11,
               49, 12, 50, 13, 51, 14, 52, 15, 53, 16, 54, 17, 55, 18, 56]
    values = " ".join(f"{number:08x}" if number < 25 else "-" for number in numbers)
    yield "put 0..25  STORED 25", f"get_many {listed(numbers)}  GOT {values}", "stats hits misses busy  25 19 0"


# Values

def pattern(length, room):
    """The bytes of a buffer with a value of this length at its front: those of the value, and 255 behind them."""
    return bytes([place % 251 if place < length else 255 for place in range(room)]).hex()


def lengths(most):
    return [0, 1, 7, 8, 9, 31, 32, most - 9, most - 1, most]


VALUE_ROWS = {"buckets": 1, "overflow": 4, "segments": 2, "rows": 1_024}
FEW_VALUES = {"buckets": 1, "overflow": 4, "segments": 3, "rows": 192}


@case(**VALUE_ROWS)
def a_value_goes_to_the_front_of_a_buffer(most):
    """The value's bytes are at the front of the buffer, and no other byte is written."""
    for length in lengths(most):
        yield f"put 1 bytes={length}  STORED 1"
        for room in (length, length + 1, most + 8):
            yield f"get_into 1 room={room}  FOUND {length} {pattern(length, min(room + 8, 4_072))}"


@case(**VALUE_ROWS)
def a_buffer_that_is_too_short_is_left_as_it_was(most):
    """Only the value's length is told."""
    for length in lengths(most)[1:]:
        yield f"put 1 bytes={length}  STORED 1"
        yield [f"get_into 1 room={room}  SHORT {length} {pattern(0, room + 8)}" for room in (0, length - 1)]


@case(**VALUE_ROWS)
def a_gets_copies_the_value_and_tells_the_version(most):
    """Each put of the bucket's only key counts its version on by one."""
    yield f"gets_into 1 room=40  MISS {pattern(0, 48)}"
    for length, version in ((9, 1), (1, 2), (most, 3)):
        yield f"put 1 bytes={length}  STORED 1"
        yield f"gets_into 1 room={length}  FOUND {length} {version} {pattern(length, length + 8)}"
        yield f"gets_into 1 room={length - 1}  SHORT {length} {version} {pattern(0, length + 7)}"
    yield "stats hits misses  6 1"


@case(**FEW_VALUES)
def bytes_that_were_put_are_read(most):
    """What is read is what was given, at each length, also where the rows held longer values before."""
    for length in [4_065, 4_064, 224, 97, 96, 33, 32, 31, 0] * 4:
        for number, time in ((1, ""), (2, " for=9")):
            yield f"put {number} bytes={length}{time}  {'STORED' if length <= most else 'TOO_LONG'} 1"
            yield [f"value {number}  FOUND {pattern(length, length)}"] if length <= most else []


def generated(most):
    """The name, the sentence and the lines of each case, where values have at most so many bytes."""
    for name, shape, says, function, arguments in CASES:
        lines = [opened(**shape)] if shape else []
        given = arguments if len(arguments) >= function.__code__.co_argcount else [most]
        for yielded in function(*given):
            lines += [yielded] if isinstance(yielded, str) else yielded
        yield name, " ".join(says.split()), [line.split("  ") for line in lines]
