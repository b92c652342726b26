"""The host: it hears lines, keeps each text before it acknowledges it, and sends orders."""
