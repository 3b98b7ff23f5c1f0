"""Three loads on a server of four workers, with every answer checked: many requests of all kinds, with cancels, and
with its calls answered out of order; calls that are answered late; and many cancels of requests that wait for their
replies. What was sent in the first is played too, by the player on one thread, and compared with what was served."""
import collections
import io
import json
import random
import threading
from concurrent.futures import ThreadPoolExecutor

from support import client as peer
from support import ran
from support import rows
from support.client import Client, call, cancel, error, notification, request
from support.traffic import CANCELLED, Said, planned

count = ran.Count()
ran.built()
METHODS = rows.file_of(rows.METHODS)
SEED = 20_261_123
REQUESTS = 100_000
# How many calls the methods make.
CALLS = {"ask": 1, "gate": 1, "keep": 1, "two": 2}


def said(number, turn):
    """What the other side answers to the call number.turn: a value, or an error in its place."""
    if (number + turn) % 11 == 0:
        return Said(error=(number, "sorry"))
    return Said([None, True, False, number, f"{number}.{turn}", [turn]][(number * 7 + turn) % 6])


def reply(number, turn):
    return said(number, turn).text(f"{number}.{turn}")


def answer(id_, number, method, params):
    """What a request is answered, and what its handler sends on the way: the number is that of its call entry."""
    return planned(number, id_, method, params, [said(number, turn + 1) for turn in range(CALLS.get(method, 0))])


class Load:
    """Requests that are sent while another thread reads, and what came of them."""

    def __init__(self, client, seed):
        self.client, self.random = client, random.Random(seed)
        self.sent, self.calls, self.answers = bytearray(), [], []
        self.sends = collections.defaultdict(list)
        self.lock, self.room = threading.Condition(), []

    def send(self, *contents):
        """Sends contents, cut at random."""
        data = rows.frames(*contents)
        with self.lock:
            self.sent += data
            cut = self.random.randrange(len(data))
            self.client.send_bytes(data[:cut])
            self.client.send_bytes(data[cut:])

    def read(self, wanted):
        """Reads until so many answers came: answers by their ids, and what each handler sent."""
        while len(self.answers) < wanted:
            content = self.client.receive()
            if content is None or not isinstance(content, str) or content.startswith("nothing for "):
                count.check("the load's answers", False, f"{content} after {len(self.answers):,} answers of {wanted:,}")
                self.client.process.kill()  # (who sends would wait for ever for one that stops)
                break
            value = json.loads(content)
            entries = value if isinstance(value, list) else [value]
            if "method" not in entries[0]:
                self.answers.append((value["id"], content))
            elif entries[0]["method"] == "$/cancelRequest":
                self.sends[int(entries[0]["params"]["id"].split(".")[0])].append(content)
            elif "id" in entries[0]:
                number = int(entries[0]["id"].split(".")[0])
                self.sends[number].append(content)
                with self.lock:
                    self.room += [tuple(map(int, it["id"].split("."))) for it in entries]
                    self.lock.notify()
            else:
                self.sends["notices"].append(content)
        with self.lock:
            self.room.append(None)
            self.lock.notify()

    def reply_out_of_order(self, most):
        """Replies to each call, one of those that wait at random, once so many wait or none came for a while."""
        waiting, is_over = [], False
        while not is_over or waiting:
            with self.lock:
                if not self.room and not is_over:
                    self.lock.wait(0.02)
                waiting += [it for it in self.room if it]
                is_over = is_over or None in self.room
                fresh, self.room = bool(self.room), []
            while waiting and (len(waiting) > most or not fresh or is_over):
                fresh = True
                at = self.random.randrange(len(waiting))
                waiting[at], waiting[-1] = waiting[-1], waiting[at]
                try:
                    self.send(reply(*waiting.pop()))
                except (BrokenPipeError, ValueError):
                    return


def run(load, wanted, send_all, most):
    """Sends, reads and replies by threads of their own, and gives what came behind the answers."""
    with ThreadPoolExecutor(2) as pool:
        waits = [pool.submit(load.read, wanted), pool.submit(load.reply_out_of_order, most)]
        send_all()
    for it in waits:
        it.result()
    load.client.close_input()
    return load.client.end()


# ---- many requests of all kinds

with Client(["--table", METHODS, "--workers", "4"]) as client:
    load, plans, wishes = Load(client, SEED), {}, set()
    choose = random.Random(SEED + 1)

    def send_all():
        number, parked = 0, collections.deque(maxlen=50)
        for id_ in range(1, REQUESTS + 1):
            number += 1
            method = choose.choice(["add", "ask", "two", "gate", "keep", "note"])
            params = [choose.randrange(-(2**40), 2**40), choose.randrange(2**40)]
            plans[id_] = (number, method, params)
            load.send(request(id_, method, params))
            parked.append(id_)
            if choose.random() < 0.05:
                number += 1
                named = choose.choice(parked)
                wishes.add(named)
                load.send(cancel(named))

    left, status, errors = run(load, REQUESTS, send_all, 40)
    count.check("many requests: the end", (left, status, errors) == ([], 0, b""), f"{left[:3]} {status} {errors!r}")
    ids = [it for it, _ in load.answers]
    count.check(
        "each request is answered once, in order of arrival", ids == [*range(1, REQUESTS + 1)], f"{len(ids):,} answers"
    )
    hits = 0
    notices = collections.Counter()
    for id_, found in load.answers:
        number, method, params = plans[id_]
        wanted, sends = answer(id_, number, method, params)
        is_hit = found == error(id_, *CANCELLED)
        hits += is_hit
        count.check(
            f"request {id_} ({method})", found == wanted or (is_hit and id_ in wishes), f"{found} in place of {wanted}"
        )
        if method == "note":
            notices.update(sends)
            continue
        withdrawals = [notification("$/cancelRequest", {"id": f"{number}.{turn}"}) for turn in (1, 2)]
        came = load.sends[number]
        is_well = (
            came == sends if not is_hit else came[:1] in ([], sends[:1]) and all(it in withdrawals for it in came[1:])
        )
        count.check(f"what the handler of request {id_} sent", is_well, f"{came} in place of {sends}")
    # (a cancelled `note` may have sent its notice or not)
    found = collections.Counter(load.sends["notices"])
    count.check("notices", not found - notices, f"{list(found - notices)[:3]} came without cause")
    lacking = sum((notices - found).values())
    count.check("notices that are lacking are those of cancelled requests", lacking <= hits, f"{lacking} are lacking")
    count.check("some cancels hit and some came too late", 0 < hits < len(wishes), f"{hits:,} of {len(wishes):,}")
    print(f"{REQUESTS:,} requests, {len(wishes):,} of them named by cancels, {hits:,} of these cancelled")

    # The very bytes that were sent, played on one thread: a request that no cancel names has the same answer.
    status, output, errors = ran.run(["play", "--table", METHODS], bytes(load.sent))
    count.check("what was sent, played", (status, errors) == (0, b""), f"{status} {errors!r}")
    served = dict(load.answers)
    played = {}
    for content in peer.contents_in(io.BytesIO(output)):
        value = json.loads(content)
        if isinstance(value, dict) and "method" not in value:
            played[value["id"]] = content
    differing = [it for it in served if it not in wishes and served[it] != played.get(it)]
    count.check(
        "what was served is what was played",
        not differing and len(played) == REQUESTS,
        f"{differing[:5]} of {len(played):,}",
    )
    cancelled = [it for it in wishes if played[it] not in (error(it, *CANCELLED), answer(it, *plans[it])[0])]
    count.check("and of those that a cancel names either answer", not cancelled, f"{cancelled[:5]}")

# ---- calls that are answered late: all requests are sent before the first reply

LATE = 5_000
with Client(["--table", METHODS, "--workers", "4"]) as client:
    load = Load(client, SEED + 2)
    for id_ in range(1, LATE + 1):
        load.send(request(id_, "two"))
    keys = [key for id_ in range(1, LATE + 1) for key in ((id_, 1), (id_, 2))]
    for _ in range(LATE):
        client.receive()
    load.random.shuffle(keys)
    for key in keys:
        load.send(reply(*key))
    answers = [client.receive() for _ in range(LATE)]
    wanted = [answer(id_, id_, "two", [])[0] for id_ in range(1, LATE + 1)]
    count.check(f"{LATE:,} requests whose calls are answered late", answers == wanted)
    client.close_input()
    count.check("late replies: the end", client.end() == ([], 0, b""))

# ---- cancels of requests that wait

PARKED = 10_000
with Client(["--table", METHODS, "--workers", "4"]) as client:
    load = Load(client, SEED + 3)
    for id_ in range(1, PARKED + 1):
        load.send(request(id_, "ask", [id_]))
    calls = sorted((client.receive() for _ in range(PARKED)), key=lambda it: int(json.loads(it)["id"].split(".")[0]))
    count.check(
        "the calls of those that wait", calls == [call(f"{it}.1", "confirm", [it]) for it in range(1, PARKED + 1)]
    )
    order = list(range(1, PARKED + 1))
    load.random.shuffle(order)
    for id_ in order:
        load.send(cancel(id_))
    came = [client.receive() for _ in range(2 * PARKED)]
    withdrawn = [it for it in came if it.startswith('{"jsonrpc"')]
    answers = [it for it in came if it.startswith('{"error"')]
    count.check(
        f"{PARKED:,} cancels: withdrawals",
        sorted(withdrawn) == sorted(notification("$/cancelRequest", {"id": f"{it}.1"}) for it in order),
    )
    count.check(
        f"{PARKED:,} cancels: answers in order", answers == [error(it, *CANCELLED) for it in range(1, PARKED + 1)]
    )
    client.close_input()
    count.check("cancels: the end", client.end() == ([], 0, b""))
count.end()
