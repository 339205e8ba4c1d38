Route #1: 2 3
Cost 20
Proven
