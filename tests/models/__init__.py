"""Small models of docs/guide/FORMATS.md, with tables of their own."""
