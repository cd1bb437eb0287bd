"""Gives an example's stored LP and MPS files to real solvers, and compares the optima that they find.

An LP file has the model's optimum times the table's factor for it, and so has an MPS file, whose
factor is negative where the model maximises. `check` calls this; a solver that isn't installed is left out.
"""
import pathlib
import shutil
import subprocess
import tempfile


def glpsol(file):
    """The optimum that glpsol finds for a file, or None where it reads or finds none."""
    form = {".lp": "--lp", ".mps": "--freemps"}[file.suffix]
    report = file.with_suffix(".report")
    subprocess.run(["glpsol", form, file, "--write", report], capture_output=True)
    for line in report.read_text().splitlines() if report.is_file() else []:
        words = line.split()  # s bas ROWS COLUMNS f f OPTIMUM, or s mip ROWS COLUMNS o OPTIMUM
        if words[:2] == ["s", "bas"] and words[4:6] == ["f", "f"] or words[:2] == ["s", "mip"] and words[4] == "o":
            return float(words[-1])
    return None


def cbc(file):
    """The optimum that cbc finds for a file, or None where it reads or finds none."""
    if file.suffix == ".mps":  # it takes free MPS only where the first line says so
        first, rest = file.read_text().split("\n", 1)
        file.write_text(f"{first} FREE\n{rest}")
    report = file.with_suffix(".report")
    subprocess.run(["cbc", file, "solve", "solution", report], capture_output=True)
    words = report.read_text().split("\n")[0].split() if report.is_file() else []
    return float(words[-1]) if words[:1] == ["Optimal"] else None  # Optimal - objective value OPTIMUM


SOLVERS = {"glpsol": glpsol, "cbc": cbc}


def missing():
    """The names of the solvers that aren't installed."""
    return [name for name in SOLVERS if shutil.which(name) is None]


def factor_of(table, form):
    """The number in the table's line `factor lp F` or `factor mps F`."""
    lines = [line.split() for line in table.read_text().splitlines()]
    return next(int(words[2]) for words in lines if words[:2] == ["factor", form])


def failures_of(model):
    """Says which solver reads a file of the model and doesn't find its optimum."""
    if not model.with_suffix(".optimum").is_file():
        return [f"{model.stem}.optimum isn't there"]
    found = []
    optimum = float(model.with_suffix(".optimum").read_text())
    for name, solve in SOLVERS.items():
        for form in ("lp", "mps") if shutil.which(name) else ():
            wanted = optimum * factor_of(model.with_suffix(".tbl"), form)
            with tempfile.TemporaryDirectory() as folder:
                got = solve(pathlib.Path(shutil.copy(model.with_suffix("." + form), folder)))
            if got is None or abs(got - wanted) > 1e-6 * max(1, abs(wanted)):
                found.append(f"{name} gives {model.stem}.{form} the optimum {got} in place of {wanted}")
    return found
