count = 0
total = 0

def add(line):
    global count, total
    for word in line.split():
        total += int(word)
        count += 1

def summary():
    return f"{count} numbers, {total} in all"
