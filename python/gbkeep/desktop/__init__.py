"""The window, in two parts: a model that knows no toolkit, and a view by GTK 4 and libadwaita (`view`).

The model is the list of games, what files are, save states, the timeline, keys, preferences, what is said, and the play itself, which runs in a thread of its
own. The view shows it and hands it what a person does. Nothing of the model waits for the view's frame clock, nor the other way round."""
