"""A simulated analyzer, which sends messages and asks for orders."""
