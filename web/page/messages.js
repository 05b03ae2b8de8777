// Made by scripts/page.py of python/gbkeep/messages.json: the texts of the window, of which the page shows some.
export const MESSAGES = {
  "actions": {
    "Right": "Right",
    "Left": "Left",
    "Up": "Up",
    "Down": "Down",
    "A": "A",
    "B": "B",
    "Select": "Select",
    "Start": "Start",
    "Pause": "Pause, and go on",
    "Next frame": "Next frame",
    "Fast": "Fast, while held",
    "Stay fast": "Fast, on and off",
    "Rewind": "Rewind, while held",
    "Undo": "Undo the last rewind, load or reset",
    "Reset": "Reset",
    "Keep slot": "Save to the chosen state",
    "Go back": "Load the chosen state",
    "Next state": "Choose the next state",
    "States": "Show the save states",
    "Timeline": "Timeline",
    "Picture": "Screenshot",
    "Palette": "Next palette",
    "Full screen": "Full screen",
    "Keys": "Keyboard shortcuts",
    "Menu": "Menu, and back from full screen"
  },
  "said": {
    "claim": "A Game Boy emulator. A game is saved every second, by itself. There is no sound.",
    "empty": "Drop a game here, or choose one: .gb, .gbc, .zip, .sav, .srm or .gbkeep.",
    "hint": "Games, saves of other emulators (.sav) and zip files can be dropped anywhere on this window.",
    "keys hint": "F1 shows the keys. Esc shows the menu.",
    "nothing to go back to": "There is nothing to go back to.",
    "nothing to undo": "There is nothing to undo.",
    "undone": "Undone: the game is as it was before.",
    "reset": "The game was reset.",
    "recorded": "A recorded game only goes forward. Rewind and the timeline begin a branch of it.",
    "saved again": "The game is saved again.",
    "clock goes on": "The clock goes on.",
    "no moments": "A moment of play is kept each ten seconds, for the last hour.",
    "recording is read": "The recording is being read: look again in a moment.",
    "recording unread": "The recording can't be read.",
    "branch begins": "A branch is being made.",
    "branch": "A branch: {save}, recorded in {recording}.",
    "no branch": "There is no branch: {why}",
    "goes on again": "The program that keeps the game was ended by something else. The game goes on.",
    "goes on from there": "The game goes on from there. Undo brings it back.",
    "paused": "Paused",
    "paused, with its key": "Paused: {key} goes on",
    "not saved": "not saved for {count} s",
    "saved": "saved",
    "saved before": "saved {count} s ago",
    "just now": "just now",
    "seconds ago": "{count} s ago",
    "minutes ago": "{count} min ago",
    "today": "today, {clock}",
    "yesterday": "yesterday, {clock}",
    "welcome": "Welcome back: the game goes on from {where}.",
    "where it was closed": "where it was closed",
    "before it was closed": "{seconds} s before it was closed",
    "rewound": "Back by {seconds} s",
    "rewound, oldest": "Back by {seconds} s, as far as it goes",
    "state saved": "State {number} saved.",
    "state before": " The one before is {name}.",
    "state not saved": "State {number} was not saved: {why}",
    "state copied": "Copied to {name}, a game of its own. {recorded}",
    "state empty": "State {number} is empty.",
    "state loaded": "State {number} loaded.",
    "game before": " The game before is {name}.",
    "state not loaded": "State {number} was not loaded: {why}",
    "screenshot": "Screenshot: {name}",
    "no screenshot": "No screenshot: {why}",
    "made": "{name} was made."
  },
  "asked": {
    "begin with": {
      "head": "Begin {title} with {battery}?",
      "body": "It is what another emulator saved of this game. It is only read.",
      "yes": "Begin with it",
      "no": "Begin anew"
    },
    "branch here": {
      "head": "Begin a branch here?",
      "body": "A recording only goes forward. A branch is a new game beside it, with a recording of its own. What was played, and its recording, stay as they are.",
      "yes": "Begin a branch"
    },
    "reset": {
      "head": "Reset?",
      "body": "The game begins at its title, with what its battery keeps.",
      "yes": "Reset"
    },
    "give time": {
      "head": "Give the time away to the game's clock?",
      "body": "{text}",
      "yes": "Give it",
      "no": "Don't"
    },
    "play recorded": {
      "head": "Go on with the recording?",
      "body": "This game is recorded in {recording}: every input goes there, too. Without its recording it is not played.",
      "yes": "Go on"
    },
    "start over": {
      "head": "Start {title} over?",
      "body": "A new game begins. The present one is kept beside it, and is listed in the menu of its card.",
      "yes": "Start over"
    },
    "forget game": {
      "head": "Take {title} off the list?",
      "body": "Its files stay where they are. Opening its cartridge brings it back.",
      "yes": "Take it off"
    },
    "delete state": {
      "head": "Delete state {number}?",
      "body": "This can't be undone.",
      "yes": "Delete"
    },
    "play instead": {
      "head": "Play {title}?",
      "body": "{played} is saved, and can be continued.",
      "yes": "Play"
    },
    "new with battery": {
      "head": "Begin a new game of {title} with {battery}?",
      "body": "The game that is there is kept beside it.",
      "yes": "Begin new game"
    },
    "where is": {
      "head": "Where is {cart} now?",
      "body": "Its file was moved or removed. The game itself is kept, and goes on once its cartridge is found.",
      "yes": "Choose the file"
    },
    "where is the cartridge": {
      "head": "Where is the cartridge of {save}?",
      "body": "A save file holds the game alone. Choose the cartridge (.gb) that it was begun with.",
      "yes": "Choose the file"
    }
  }
};
