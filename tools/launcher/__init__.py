"""What `./qecode` and `tools/build` are made of: programs of this repository, how they are proved and built, and how they run."""
