"""What the tools that print pages share: the program, what it prints, and how a page is laid out."""
