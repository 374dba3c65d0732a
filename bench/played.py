"""Seconds of processor that a step of a script takes, as the suite `rows` of `mesh_answers` plays it over a project and a
warehouse in memory alone."""
from measured import PROGRAM, ran


def seconds(program, files, script, last=0, status=0, runs=2):
    """The least seconds of some runs of a script over an example's files, whose last commands have this status, and all others 0."""
    example = {**files, "script": "\n".join(["alone", *script]) + "\n"}
    least, _, said = ran([program, "rows"], {f"rows/example/{path}": text for path, text in example.items()}, runs)
    answered = [line for line in said.splitlines() if line.startswith("status ")]
    assert len(answered) == sum(line.startswith("mesh ") for line in script), said[:1000]
    assert all(line.startswith(f"status {status}, ") for line in answered[len(answered) - last :]), said[-1000:]
    assert all(line.startswith("status 0, ") for line in answered[: len(answered) - last]), said[:1000]
    return least


def each(program, files, front, steps, status=0):
    """The seconds of one of the commands behind those in front, each of which has this status."""
    return (seconds(program, files, front + steps, len(steps), status) - seconds(program, files, front)) / len(steps)


def star(count):
    """FULL models over one, and that one with another number, by which all have other fingerprints."""
    files = {f"project/models/m{i:05}.sql": f"MODEL (name s.m{i:05}, kind FULL); SELECT x + 1 AS x FROM s.m00000\n" for i in range(1, count)}
    for number in range(8):
        files[f"root{number}.sql"] = f"MODEL (name s.m00000, kind FULL); SELECT {number} AS x\n"
    files["project/models/m00000.sql"] = files["root0.sql"]
    return files


def applied(times, env="prod"):
    """Steps that apply a star as often, each time with other fingerprints."""
    made = []
    for number in range(times):
        made += [f"write models/m00000.sql root{number}.sql", f"mesh apply {env} --execution-time 2024-01-03T00:30"]
    return made
