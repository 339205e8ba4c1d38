Route #1: 6 1 2 5 7 9
Route #2: 10 8 3 4 11 13
Route #3: 12 15 18 20 17
Route #4: 14 21 19 16
Cost 375
