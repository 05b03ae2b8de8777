"""The view: what the window shows, by GTK 4 and libadwaita. It is thin: what it knows it has from the model."""
