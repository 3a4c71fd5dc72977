"""A list of broken rules, each with the words that say what is broken."""


class Slips(list):
    def __call__(self, words):
        """Keeps the class that follows under these words."""
        def keep(broken):
            self.append((words, broken))
            return broken
        return keep
