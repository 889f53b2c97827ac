{ chainage = 1284.5; pitch = 0.125; target = { x = 3; y = 1.5; }; }
