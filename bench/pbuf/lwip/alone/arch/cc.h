/* What lwIP asks of a compiler: its own defaults serve. */
