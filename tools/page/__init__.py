"""The live page: the program in one file for a browser, with what draws its runs."""
