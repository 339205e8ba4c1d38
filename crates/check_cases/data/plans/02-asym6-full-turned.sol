Route #1: 2 1 4
Route #2: 6 3 5
Cost 263