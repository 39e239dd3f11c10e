"""Tables from the standards (characters, video modes, audio rates, packets), and the kinds of faults of docs/guide/FORMATS.md. Each table
exists once."""
