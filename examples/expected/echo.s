Hello, tiger.
