"""What is released, and a clone, in bare roots: Debian's smallest system, without the kit and without a checkout. It is
a long run, `make roots`, and needs root, debootstrap and Debian's packages."""
