hello from the machine
