"""What `bench/measure` is made of."""
