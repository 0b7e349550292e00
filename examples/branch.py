limit = 3
if limit > 2:
    print(limit)
else:
    print(0)
