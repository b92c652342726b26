"""What is built of dist/, what is installed, and the package of Debian."""
