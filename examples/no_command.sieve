# The words of this example are no command: nothing of the document is read.
