"""What `scripts/plant --quick` and `scripts/plant --dates` are made of: planted bodies are tried by checks of the functions that they change."""
