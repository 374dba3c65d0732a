#!/usr/bin/env python3
"""What the worked example `guide_bikes` of `mesh_answers` has to print, computed without mesh: an independent reference.

It goes through the script of the example. The models of `examples/bikes` are written a second time here, as queries of SQLite, which
computes the rows of each interval, of each model and of each question. What a plan says, what is due, how many changes a command makes
and what the janitor deletes follow from the rules of docs/REFERENCE.md and docs/COMMANDS.md, which are written a second time here too.
Fingerprints are this script's own. It knows what this example needs: no refusals but an earlier moment, an unknown environment and an
unknown column or relation in a question.

Without a word it compares what it computes with the file `expected` of the example; with `--write` it writes that file; with `--things`
it also prints how many things of each kind the warehouse has at the end.

Usage: bench/bikes.py [--write] [--things]"""
import csv
import datetime
import hashlib
import re
import shlex
import sqlite3
import sys

from measured import TOP

EXAMPLE = f"{TOP}/crates/mesh_answers/data/rows/guide_bikes"
HOUR, DAY, WEEK = 3600, 86400, 604800
START = 1714521600  # 2024-05-01, where each incremental model begins.

# kind, unit, lookback, time column, models that are read
SHAPES = {
    "areas": ("VIEW", DAY, 0, None, ("balance", "stations")),
    "balance": ("FULL", DAY, 0, None, ("station_days", "stations")),
    "calendar": ("SEED", DAY, 0, None, ()),
    "days": ("FULL", DAY, 0, None, ("calendar", "fares", "weather")),
    "fares": ("INCREMENTAL_BY_TIME_RANGE", DAY, 0, "day", ("rides", "tariffs")),
    "fleet": ("FULL", DAY, 0, None, ("fares",)),
    "report": ("VIEW", DAY, 0, None, ("days", "revenue")),
    "revenue": ("FULL", DAY, 0, None, ("fares",)),
    "rides": ("INCREMENTAL_BY_TIME_RANGE", HOUR, 0, "started", ()),
    "routes": ("FULL", DAY, 0, None, ("trips",)),
    "station_days": ("INCREMENTAL_BY_TIME_RANGE", DAY, 0, "day", ("rides",)),
    "stations": ("SEED", DAY, 0, None, ()),
    "tariffs": ("SEED", DAY, 0, None, ()),
    "trips": ("VIEW", DAY, 0, None, ("rides", "stations")),
    "weather": ("INCREMENTAL_BY_TIME_RANGE", DAY, 1, "day", ()),
}
FARE = """select date(r.started, 'unixepoch') as day, r.ride, r.bike, r.plan, (r.seconds + 59) / 60 as minutes {hour},
    t.start_cents + max((r.seconds + 59) / 60 - t.free_minutes, 0) * t.minute_cents as cents
    from bikes.rides r, bikes.tariffs t where t.plan = r.plan and r.started between :first and :last"""
RIDES = "select * from raw.rides where started between :first and :last and seconds > {least} - 1"
# The query of each model that is no seed, by the file that has it.
QUERIES = {
    "models/areas.sql": """select area, count(station) as stations, sum(docks) as docks, sum(departures) as departures,
        sum(gained) as gained from bikes.stations join bikes.balance using (station) group by area""",
    "models/balance.sql": """select s.station, s.name,
        (select ifnull(sum(d.departures), 0) from bikes.station_days d where d.station = s.station) as departures,
        (select ifnull(sum(d.arrivals), 0) from bikes.station_days d where d.station = s.station) as arrivals,
        (select ifnull(sum(d.arrivals) - sum(d.departures), 0) from bikes.station_days d where d.station = s.station) as gained
        from bikes.stations s""",
    "models/days.sql": """select c.day, c.weekday, c.weekend, (select count(*) from bikes.fares f where f.day = c.day) as rides,
        (select sum(f.cents) from bikes.fares f where f.day = c.day) as cents,
        (select max(w.rain) from bikes.weather w where w.day = c.day) as rain
        from bikes.calendar c where c.day in (select day from bikes.fares)""",
    "models/fares.sql": FARE.format(hour=""),
    "edits/fares.sql": FARE.format(hour=", cast(strftime('%H', r.started, 'unixepoch') as int) as hour"),
    "models/fleet.sql": """select bike, count(distinct day) as days, count(*) as rides, sum(minutes) as minutes, max(day) as last_day
        from bikes.fares group by bike""",
    "models/report.sql": """select d.day, d.weekday, d.rides, d.cents, ifnull((select r.cents from bikes.revenue r
        where r.day = d.day and r.plan = 'casual'), 0) as casual_cents,
        iif(d.rain is null, 'unknown', iif(d.rain > 0, 'wet', 'dry')) as weather from bikes.days d""",
    "models/revenue.sql": "select day, plan, count(*) as rides, sum(cents) as cents from bikes.fares group by day, plan",
    "models/rides.sql": RIDES.format(least=60),
    "edits/rides.sql": RIDES.format(least=120),
    "models/routes.sql": """select * from (select from_name, to_name, count(*) as rides, min(seconds) as fastest from bikes.trips
        where to_name is not null group by from_name, to_name) where rides > 1""",
    "models/station_days.sql": """select day, station, sum(began) as departures, sum(ended) as arrivals from (
        select date(started, 'unixepoch') as day, from_station as station, 1 as began, 0 as ended, started from bikes.rides union all
        select date(started, 'unixepoch'), to_station, 0, 1, started from bikes.rides where to_station notnull)
        where started between :first and :last group by day, station""",
    "edits/station_days.sql": """select date(started, 'unixepoch') as day, from_station as station, count(*) as departures, 0 as arrivals
        from bikes.rides group by day, station""",
    "models/trips.sql": """select r.ride, (select s.name from bikes.stations s where s.station = r.from_station) as from_name,
        (select s.name from bikes.stations s where s.station = r.to_station) as to_name, r.seconds from bikes.rides r""",
    "models/weather.sql": "select * from raw.weather where day between date(:first, 'unixepoch') and date(:last, 'unixepoch')",
}
# Files whose query only has more columns than that of another file.
ADDS = {("edits/fares.sql", "models/fares.sql")}
# What a file reads without a condition that binds it to the interval.
UNBOUND = {"edits/station_days.sql": "rides"}
# The columns of files that have numbers; others have texts and days.
NUMBERS = ("station", "docks", "start_cents", "free_minutes", "minute_cents", "ride", "bike", "from_station", "to_station", "started",
           "seconds", "rain", "degrees")


def moment_of(text):
    return int(datetime.datetime.fromisoformat(text).replace(tzinfo=datetime.timezone.utc).timestamp())


def text_of(moment):
    return datetime.datetime.fromtimestamp(moment, datetime.timezone.utc).strftime("%Y-%m-%dT%H:%M:%S")


def second_of(value):
    return value if isinstance(value, int) else moment_of(value)


def table_of(path):
    """The columns and rows of a CSV file."""
    with open(path) as file:
        head, *rows = csv.reader(file)
    cast = [int if column in NUMBERS else str for column in head]
    return head, [tuple(to(field) if field else None for to, field in zip(cast, row)) for row in rows]


def printed(head, rows):
    """Rows as `fetchdf` prints them."""
    ordered = sorted(rows, key=lambda row: [(cell is not None, cell) for cell in row])
    return "".join(",".join("" if cell is None else str(cell) for cell in row) + "\n" for row in [head, *ordered])


class Snapshot:
    """A version of a model."""

    def __init__(self, model, file, seed, parents):
        self.model, self.file, self.seed, self.parents = model, file, seed, parents
        self.kind, self.unit, self.lookback, self.time, _ = SHAPES[model]
        self.own = repr((model, file if seed is None else seed))
        self.mark = hashlib.sha256(repr((self.own, [it.mark for it in parents])).encode()).hexdigest()
        self.rank = 1 + max(it.rank for it in parents) if parents else 0
        self.expires, self.table = 0, None

    def above(self):
        """All versions that it reads, directly or through others."""
        return {it.model: it for parent in self.parents for it in [parent, *parent.above().values()]}

    def horizon(self, moment):
        own = moment - moment % self.unit
        kind = "INCREMENTAL_BY_TIME_RANGE"
        return min([own, *(it.horizon(moment) for it in self.above().values() if it.kind == kind and self.kind == kind)])

    def schedule(self, moment):
        return range(START, self.horizon(moment) - self.unit + 1, self.unit)

    def marks(self, moment):
        counted = [it for it in [self, *self.above().values()] if it.kind not in ("SEED", "VIEW")]
        return sorted((it.model, it.horizon(moment)) for it in counted)


class Table:
    """What is stored for one version or more: rows and what is recorded of them."""

    def __init__(self):
        self.head, self.rows, self.units, self.marks, self.made = None, [], set(), None, False


class Warehouse:
    def __init__(self):
        self.moment, self.snapshots, self.environments, self.sources = 0, {}, {}, {}
        self.base = sqlite3.connect(":memory:")
        for name in ("bikes", "raw"):
            self.base.execute(f"attach ':memory:' as {name}")

    def put(self, name, head, rows):
        self.base.execute(f"drop table if exists {name}")
        self.base.execute(f"create table {name} ({', '.join(head)})")
        self.base.executemany(f"insert into {name} values ({', '.join('?' * len(head))})", rows)

    def stage(self, snapshots):
        """Gives SQLite these versions under the names of their models, and no others."""
        shown = [(it.model, *self.rows(it)) for it in snapshots]
        for name, in self.base.execute("select name from bikes.sqlite_master").fetchall():
            self.base.execute(f"drop table bikes.{name}")
        for name, head, rows in shown:
            self.put(f"bikes.{name}", head, rows)

    def ask(self, query, first=0, last=0):
        asked = self.base.execute(query, {"first": first, "last": last} if ":first" in query else {})
        return [it[0] for it in asked.description], asked.fetchall()

    def rows(self, snapshot):
        """What a version's view shows."""
        if snapshot.kind != "VIEW":
            return snapshot.table.head, snapshot.table.rows
        self.stage(snapshot.parents)
        return self.ask(QUERIES[snapshot.file])

    def compute(self, snapshot, units):
        """Fills what is due of a version."""
        table = snapshot.table
        if snapshot.kind == "SEED":
            table.head, table.rows = snapshot.seed
        elif snapshot.kind == "FULL":
            self.stage(snapshot.parents)
            table.head, table.rows = self.ask(QUERIES[snapshot.file])
        elif snapshot.kind != "VIEW":
            self.stage(snapshot.parents)
            for unit in units:
                last = unit + snapshot.unit - 1
                table.head, rows = self.ask(QUERIES[snapshot.file], unit, last)
                at = table.head.index(snapshot.time)
                table.rows = [row for row in table.rows if not unit <= second_of(row[at]) <= last]
                table.rows += [row for row in rows if unit <= second_of(row[at]) <= last]


def additive(new, old):
    """Whether only columns were added, to the version or to what it reads."""
    same = new.own == old.own or (new.file, old.file) in ADDS
    return same and len(new.parents) == len(old.parents) and all(map(additive, new.parents, old.parents))


def word_of(new, old):
    if old is None:
        return "added"
    indirect = "indirect-" if new.own == old.own else ""
    return indirect + ("non-breaking" if additive(new, old) else "breaking")


class Project:
    """The files of the example's project, and the commands over them."""

    def __init__(self):
        self.house = Warehouse()
        self.files = {model: f"models/{model}.sql" for model in SHAPES}
        self.seeds = {model: f"seeds/{model}.csv" for model, shape in SHAPES.items() if shape[0] == "SEED"}

    def write(self, path, of):
        """A step `write`: `bikes/models/fares.sql` gets what `project/bikes/edits/fares.sql` has."""
        at, of = path.split("/", 1)[1], of.split("/", 2)[2]
        model = at.split("/")[1].split(".")[0]
        (self.seeds if at.startswith("seeds/") else self.files)[model] = of

    def delete(self, path):
        del self.files[path.split("/")[2].split(".")[0]]

    def load(self):
        """The versions of the project's models: those that the warehouse has already, and new ones."""
        found = {}

        def version(model):
            if model not in found:
                head, rows = table_of(f"{EXAMPLE}/project/bikes/{self.seeds[model]}") if model in self.seeds else (None, None)
                seed = (head, rows) if head else None
                made = Snapshot(model, self.files[model], seed, [version(it) for it in SHAPES[model][4]])
                found[model] = self.house.snapshots.get(made.mark, made)
            return found[model]

        return {model: version(model) for model in sorted(self.files)}

    def due(self, versions, moment, again, days):
        """What is due of each version, by rank and name, and whether something is forgotten first."""
        found, forgets = [], False
        for it in sorted(versions.values(), key=lambda it: (it.rank, it.model)):
            table = it.table or Table()
            restated = again is not None and (it.model == again or again in it.above())
            if it.kind in ("SEED", "VIEW"):
                units = [None] if not table.made else []
            elif it.kind == "FULL":
                units = [None] if restated or table.marks != it.marks(moment) else []
                forgets |= restated and table.marks is not None
            else:
                schedule = it.schedule(moment)
                back = {u for u in schedule if restated and u in table.units and u < days[1] and u + it.unit > days[0]}
                new = {u for u in schedule if u not in table.units} | back
                looked = {u for u in schedule if u not in new and any(u + k * it.unit in new for k in range(1, it.lookback + 1))}
                forgets |= bool(back | looked)
                units = sorted(new | looked)
            if units:
                found.append((it, units))
        return found, forgets

    def due_lines(self, dues):
        lines = []
        for it, units in dues:
            if units == [None]:
                lines.append(f"due bikes.{it.model} whole")
                continue
            runs = []
            for unit in units:
                if runs and runs[-1][1] == unit:
                    runs[-1][1] += it.unit
                else:
                    runs.append([unit, unit + it.unit])
            for start, end in runs:
                lines.append(f"due bikes.{it.model} {text_of(start)} {text_of(end)} {(end - start) // it.unit}")
        return [*(lines or ["nothing due"]), f"{sum(len(units) for _, units in dues)} units"]

    def fill(self, dues, moment):
        """Computes what is due, and counts the changes."""
        changes = 0
        for it, units in dues:
            table = it.table
            changes += (0 if table.made else 1) + (1 if it.kind == "VIEW" else 2 * len(units))
            self.house.compute(it, units)
            table.made = True
            table.units |= set(units) - {None}
            table.marks = it.marks(moment)
        return changes

    def behind(self, moment):
        if moment < self.house.moment:
            return 7, 0, f"S1 moment {text_of(moment)} is behind {text_of(self.house.moment)}\n"
        return None

    def apply(self, env, moment, again=None, days=(0, 1 << 60), only_plan=False):
        refused = self.behind(moment)
        if refused:
            return refused
        house, versions = self.house, self.load()
        old = house.environments.get(env, house.environments.get("prod", {"list": {}}))["list"]
        lines = [f"plan {env} at {text_of(moment)}"]
        for model in sorted({*versions, *old}):
            if model not in versions:
                lines.append(f"removed bikes.{model} {old[model].kind}")
            elif versions[model] is not old.get(model):
                it, before = versions[model], old.get(model)
                word = word_of(it, before)
                lines.append(f"{word} bikes.{model} {it.kind}")
                if it.table is None and word == "indirect-non-breaking" and it.kind != "VIEW":
                    it.table = before.table
        lines += ["no changes"] if len(lines) == 1 else []
        lines += [f"unsteady bikes.{model} reads bikes.{UNBOUND[it.file]}" for model, it in versions.items() if it.file in UNBOUND]
        dues, forgets = self.due(versions, moment, again, days)
        lines += self.due_lines(dues)
        if only_plan:
            return 0, 0, "\n".join(lines) + "\n"
        house.moment = moment
        for it in versions.values():
            house.snapshots[it.mark] = it
            it.expires, it.table = moment + WEEK, it.table or Table()
        changes = 1 + len(versions) + forgets + self.fill(dues, moment)
        shown = house.environments.get(env, {"list": {}})["list"]
        changes += 2 + len(versions) + len(set(shown) - set(versions))
        house.environments[env] = {"list": versions, "expires": None if env == "prod" else moment + WEEK}
        return 0, changes, "\n".join([*lines, f"applied {env}: {changes} changes"]) + "\n"

    def run(self, env, moment):
        refused = self.behind(moment)
        if refused:
            return refused
        self.house.moment = moment
        dues, forgets = self.due(self.house.environments[env]["list"], moment, None, None)
        changes = 1 + forgets + self.fill(dues, moment)
        lines = [f"run {env} at {text_of(moment)}", *self.due_lines(dues), f"ran {env}: {changes} changes"]
        return 0, changes, "\n".join(lines) + "\n"

    def ingest(self, name, file, append):
        head, rows = table_of(f"{EXAMPLE}/project/bikes/{file}")
        had = self.house.sources.get(name, []) if append else []
        self.house.sources[name] = had + rows
        self.house.put(name, head, had + rows)
        return 0, 1, f"ingested {name}: {len(rows)} rows\n"

    def fetchdf(self, query, env="prod"):
        if env not in self.house.environments:
            return 7, 0, f"S2 environment {env} is unknown\n"
        self.house.stage(self.house.environments[env]["list"].values())
        try:
            return 0, 0, printed(*self.house.ask(query))
        except sqlite3.OperationalError as fault:
            what, name = re.match(r"no such (column|table): ([\w.]+)", str(fault)).groups()
            text = f"M7 unknown column {name}" if what == "column" else f"M6 unknown relation {name}"
            return 1, 0, f"-:{query.index(name)}: {text}\n"

    def evaluate(self, model, first, last):
        it = self.house.environments["prod"]["list"][model.split(".")[1]]
        self.house.stage(it.parents)
        head, rows = self.house.ask(QUERIES[it.file], first, last)
        at = head.index(it.time)
        return 0, 0, printed(head, [row for row in rows if first <= second_of(row[at]) <= last])

    def invalidate(self, env):
        self.house.environments[env]["expires"] = 0
        return 0, 1, f"invalidated {env}\n"

    def janitor(self, moment):
        refused = self.behind(moment)
        if refused:
            return refused
        house, changes = self.house, 1
        house.moment = moment
        gone = [name for name, env in house.environments.items() if env["expires"] is not None and env["expires"] <= moment]
        for name in gone:
            changes += 2 + len(house.environments.pop(name)["list"])
        listed = {it for env in house.environments.values() for it in env["list"].values()}
        stay = listed | {it for it in house.snapshots.values() if it.expires > moment}
        stay |= {above for it in stay for above in it.above().values()}
        before = set(house.snapshots.values())
        objects = {it.table for it in before if it.table.made} - {it.table for it in stay}
        house.snapshots = {it.mark: it for it in stay}
        changes += 2 * len(objects) + len(before - stay)
        counts = f"{len(gone)} environments, {len(objects)} objects, {len(before - stay)} snapshots, {changes} changes"
        return 0, changes, f"janitor at {text_of(moment)}: {counts}\n"

    def things(self):
        """How many things of each kind the file has."""
        house = self.house
        tables = len({it.table for it in house.snapshots.values()})
        views = sum(len(env["list"]) for env in house.environments.values())
        return [1, len(house.snapshots), tables, len(house.environments), views, tables, len(house.sources)]

    def command(self, words):
        """The status, the number of changes and the text of a command."""
        options, plain, words = {}, [], iter(words)
        for word in words:
            if word == "--append":
                options[word] = True
            elif word.startswith("--"):
                options[word] = next(words)
            else:
                plain.append(word)
        name, *rest = plain
        moment = moment_of(options.get("--execution-time", "1970-01-01"))
        days = (moment_of(options["--start"]), moment_of(options["--end"]) + DAY) if "--start" in options else (0, 1 << 60)
        again = options.get("--restate-model")
        if options.get("--paths", "bikes") != "bikes":
            kept, self.files = self.files, {}
            answer = self.command([name, *rest, "--execution-time", options["--execution-time"]])
            self.files = kept
            return answer
        return {
            "plan": lambda: self.apply(*(rest or ["prod"]), moment, again and again.split(".")[1], days, only_plan=True),
            "apply": lambda: self.apply(*(rest or ["prod"]), moment, again and again.split(".")[1], days),
            "run": lambda: self.run(*(rest or ["prod"]), moment),
            "ingest": lambda: self.ingest(*rest, "--append" in options),
            "fetchdf": lambda: self.fetchdf(*rest),
            "evaluate": lambda: self.evaluate(*rest, days[0], days[1] - 1),
            "invalidate": lambda: self.invalidate(*rest),
            "janitor": lambda: self.janitor(moment),
        }[name]()


def main():
    if set(sys.argv[1:]) - {"--write", "--things"}:
        print(__doc__)
        return 0 if sys.argv[1] in ("--help", "-h") else 2
    project, text, count = Project(), "", 0
    with open(f"{EXAMPLE}/script") as file:
        steps = [(line.rstrip("\n"), shlex.split(line, comments=True)) for line in file]
    for line, words in steps:
        if words[:1] == ["write"]:
            project.write(*words[1:])
        elif words[:1] == ["delete"]:
            project.delete(*words[1:])
        elif words[:1] == ["mesh"]:
            status, changes, said = project.command(words[1:])
            text += f"> {line}\nstatus {status}, changes {changes}\n{'out' if status == 0 else 'err'}:\n{said}"
            count += 1
    if "--things" in sys.argv:
        print("".join(f"{kind}|{many}\n" for kind, many in enumerate(project.things())), end="")
    if "--write" in sys.argv:
        with open(f"{EXAMPLE}/expected", "w") as file:
            file.write(text)
    with open(f"{EXAMPLE}/expected") as file:
        same = file.read() == text
    print(f"{count} commands: " + ("expected has what the reference computes" if same else "expected has something else"))
    return 0 if same else 1


sys.exit(main())
