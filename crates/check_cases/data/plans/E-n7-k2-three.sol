route #1: 2 1
route #2: 3 4
route #3: 5 6
