Route #1: 4 1 2
Route #2: 6 3 5
Cost 263.00
