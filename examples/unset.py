seen = 1
if seen == 2:
    other = 5
print(seen + other)
