"""What `./ramseg` adds to the program: files, help, explanations, JSON documents, and why an input is refused."""
