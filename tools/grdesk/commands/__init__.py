"""The commands, each in a file of its name: its words (`reader`) and what it does (`run`)."""
