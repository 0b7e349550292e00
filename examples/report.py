# A module and its import: the file of the module lies beside this one.
import totals

for line in ("3 4", "5", "x"):
    try:
        totals.add(line)
    except ValueError as problem:
        print(f"{line}: {problem}")
print(totals.summary())
