Route #1: 1
