print(2 - 3 - 4);
