// The words of the page in English. What the keys and the templates mean stands in words.js. A section for each module; one key a line.
export default Object.freeze({
  // ---- all

  'all.askAgain': 'Ask again',
  'all.askFor': 'Ask for {what}',
  'all.backwards': 'it ends before it begins',
  'all.change': 'Change',
  'all.close': 'Close',
  'all.dayTime': '{day} {time}',
  'all.labelled': '{words}: {title}',
  'all.leaveIt': 'Leave it',
  'all.midnight': 'A meeting ends at midnight at the latest.',
  'all.moved': 'Moved from {from} to {to}.',
  'all.no': 'No',
  'all.notRead': 'Not read yet.',
  'all.outcome': '{state}: {where} (request {id}).',
  'all.requests': { one: '{count} request', other: '{count} requests' },
  'all.showDay': 'Show the day',
  'all.slot': '{date} {start}',
  'all.stop': 'Stop',
  'all.takePlain': 'Take “{title}”',
  'all.titleRule': 'A title has 1 to {most} plain letters, digits and signs.',
  'all.unknownRoom': 'This office does not know the room.',
  'all.where': '{room}, {day}, {hours}',
  'all.withdraw': 'Withdraw',

  // ---- fault

  'fault.failing': 'its store or memory fails: {cause}',
  'fault.mayNotBook': 'this user may not book, or the password was refused',
  'fault.noReply': 'no reply',
  'fault.noRooms': 'rooms.json is no JSON',
  'fault.notTaking': 'the office is not taking requests',
  'fault.password': 'the password was refused',
  'fault.status': 'status {status}',
  'fault.unreadable': 'it cannot be read',

  // ---- acts

  'acts.book': 'Book {length} min',
  'acts.booked': 'Booked until {time}.',
  'acts.checkIn': 'Check in',
  'acts.checkInBy': 'Check in, by {time} at the latest',
  'acts.checkedIn': 'Checked in to {title}.',
  'acts.end': 'End now',
  'acts.ended': 'Ended: {title}.',
  'acts.late': 'Not booked: somebody was a moment earlier.',
  'acts.notBooked': 'Not booked: {cause}.',
  'acts.notDone': 'Not done: {cause}.',
  'acts.notEnded': 'Not ended: {cause}.',
  'acts.perhapsDone': 'Perhaps done ({cause}): look at what is shown next.',
  'acts.reallyEnd': 'Really end it?',
  'acts.released': 'Released at {time}: nobody checked in to {title}.',

  // ---- anyroom

  'anyroom.allGone': 'Not booked: all that was free had gone by then.',
  'anyroom.asking': { 0: 'Asking for {where}.', one: 'Asking for {where}, since another had gone.', other: 'Asking for {where}, since {count} others had gone.' },
  'anyroom.noneFree': 'Not booked: no room is free for that long.',
  'anyroom.notBooked': 'Not booked: {cause}.',
  'anyroom.notSent': 'Not booked: {cause}. Nothing was sent; you may try again.',
  'anyroom.perhaps': 'Perhaps booked ({cause}): look at the sheet before you ask again.',
  'anyroom.perhapsBooked': 'Perhaps booked: {where} ({cause}). Look at the sheet before you ask again.',
  'anyroom.stillWaits': 'Request {id} found no room, and may still get one: withdraw it, under My requests, before you ask again.',

  // ---- box

  'box.cancel': 'Cancel this booking',
  'box.request': 'Request {id}.',
  'box.seen': 'Seen so since {time}.',

  // ---- cancel

  'cancel.cancelNotSent': 'Not cancelled: {cause}. Nothing was sent; you may press Cancel again.',
  'cancel.cancelled': 'Cancelled: {title}, by request {id}; not final yet.',
  'cancel.cancelling': 'Cancelling',
  'cancel.hadRoom': 'It had found room by now, and is cancelled: {title}, by request {id}; not final yet.',
  'cancel.notCancelled': 'Not cancelled: {cause}.',
  'cancel.notWithdrawn': 'Not withdrawn: {cause}.',
  'cancel.nothing': 'There was no booking to cancel: {title}. If the request finds room later, it is cancelled then.',
  'cancel.numbersUsed': 'this server’s numbers are used up. Tell the operator',
  'cancel.perhapsCancelled': 'Perhaps cancelled ({cause}): its state here shows it.',
  'cancel.perhapsWithdrawn': 'Perhaps withdrawn ({cause}): its state here shows it.',
  'cancel.reallyCancel': 'Really cancel?',
  'cancel.reallyWithdraw': 'Really withdraw?',
  'cancel.timeReached': 'the greatest logical time is reached. Tell the operator',
  'cancel.unknownRequest': 'this office does not know the request',
  'cancel.unknownRoom': 'this office does not know the room',
  'cancel.withdrawNotSent': 'Not withdrawn: {cause}. Nothing was sent; you may press Withdraw again.',
  'cancel.withdrawing': 'Withdrawing',
  'cancel.withdrawn': 'Withdrawn: {title}, by request {id}. It gets no room any more.',

  // ---- coming

  'coming.none': 'No bookings in these days.',
  'coming.title': '{room}, {from} to {to}',
  'coming.unread': { one: '{count} day is not read yet.', other: '{count} days are not read yet.' },

  // ---- desk

  'desk.find': 'Free rooms, {day}',
  'desk.fresh': 'as of {time}; asks again every half minute.',
  'desk.lost': 'No connection to the office since {time} ({cause}).',
  'desk.noDay': 'There is no day {day}; this is today.',
  'desk.noRoom': 'There is no room {room}.',
  'desk.noSheet': 'There is no sheet to show.',
  'desk.noView': 'There is no view {view}.',
  'desk.old': 'What is shown is old, of {time}.',
  'desk.search': 'Search',
  'desk.stale': 'Old: as of {time}; asking on.',
  'desk.times': 'Times are the wall clock of the rooms.',
  'desk.timesOfZone': 'Times are the wall clock of the rooms ({zone}).',
  'desk.zoneUnknown': 'This browser does not know the zone {zone}; its own clock says what is today.',

  // ---- door

  'door.code': 'A code that opens the page of this room: {address}',
  'door.door': 'Door',
  'door.free': 'Free',
  'door.next': 'Next: {hours} {title}',
  'door.nextDay': 'Next: {weekday} {hours} {title}',
  'door.noNews': 'No connection, and no news yet',
  'door.nothingElse': 'Nothing else today',
  'door.nothingKnown': 'Nothing is known of today yet.',
  'door.now': 'This room now',
  'door.oldNews': 'No connection. Last news of {time}',
  'door.restOfDay': 'for the rest of the day',
  'door.taken': 'Taken',
  'door.until': 'until {time}',
  'door.whichRoom': 'Which room?',

  // ---- elsewhere

  'elsewhere.add': 'Whoever looks after this office adds a room to it by rooms-office add-room.',
  'elsewhere.hide': 'Hide this',
  'elsewhere.known': 'This page doesn’t show: {rooms}.',
  'elsewhere.room': '{label}, of {office}',
  'elsewhere.unknown': { one: 'Another office has: {rooms}. This office doesn’t know it yet, and can’t book there.', other: 'Another office has: {rooms}. This office doesn’t know them yet, and can’t book there.' },

  // ---- errorlist

  'errorlist.cancel': '{id}, a cancel that found no booking of {target}',
  'errorlist.cancelOpen': '{id}, a cancel that found no booking of {target} (not final yet)',
  'errorlist.none': '(no errors)',
  'errorlist.request': '{id} {date} {hours} {title}',
  'errorlist.requestOpen': '{id} {date} {hours} {title} (not final yet)',
  'errorlist.withdrawn': '{id} {date} {hours} {title} (not final yet), withdrawn by {by}',

  // ---- figures

  'figures.all': 'All',
  'figures.allRooms': 'All rooms',
  'figures.booked': 'Booked',
  'figures.bookings': 'Bookings',
  'figures.byMonth': 'By month',
  'figures.byRoom': 'By room',
  'figures.byWeekday': 'By day of the week',
  'figures.day': 'Day',
  'figures.desk': 'The front desk',
  'figures.drawing': 'All of it as a drawing',
  'figures.figures': 'Figures',
  'figures.from': 'From',
  'figures.hint': 'Hours booked are those within the open hours; the others stand beside them. What found no room, and was not withdrawn, counts on the day that it wished; what a merge moved, or took the room of, is counted for this office’s own requests of the last weeks alone.',
  'figures.hours': '{hours} h',
  'figures.lost': 'Lost by a merge',
  'figures.month': 'Month',
  'figures.moved': 'Moved by a merge',
  'figures.noRoom': 'Without a room',
  'figures.none': 'There are no figures yet: the office’s service writes them, some minutes after it began.',
  'figures.noneOrLost': 'There are no figures yet, or no connection: the office’s service writes them, some minutes after it began.',
  'figures.nothing': 'There is nothing of these months.',
  'figures.open': 'Open',
  'figures.outside': 'Outside the open hours',
  'figures.pages': 'Pages',
  'figures.part': 'Part',
  'figures.percent': '{percent} %',
  'figures.room': 'Room',
  'figures.table': 'All of it as a table (CSV, in minutes)',
  'figures.to': 'To',
  'figures.what': 'What the rooms are used for',

  // ---- filepart

  'filepart.none': 'None',
  'filepart.unreadable': 'The file can’t be read.',

  // ---- find

  'find.ask': 'A length in minutes, and two times of day, please.',
  'find.none': 'No room has all of that.',
  'find.notFree': 'Not free for that long.',
  'find.take': '{room} is free {day} {hours}: ask for it',

  // ---- form

  'form.allTaken': 'No room: {room} is taken at {slot} and at each alternative.',
  'form.alternative': 'That is alternative {number}: {slot} was taken.',
  'form.askAllTheSame': 'Ask all the same',
  'form.choices': 'At most 16 alternatives.',
  'form.day': 'That is no day from 1990 to 2099.',
  'form.length': 'A length is a whole number of minutes from 1 to 1440, and at each choice the meeting ends at midnight at the latest.',
  'form.mayGet': 'The request may still get one until the offices have met. If you take an offer instead, it is withdrawn.',
  'form.notSent': 'Not booked: {cause}. Nothing was sent; you may press Request again.',
  'form.numbersUsed': 'This server’s numbers are used up: the office needs a new replica. Tell the operator.',
  'form.past': '{date}, {hours} is past. Ask for it all the same?',
  'form.perhaps': 'Perhaps booked ({cause}): look at the sheet before you ask again. It is not sent again by itself.',
  'form.plainOnly': 'Only plain letters can be kept, no accents and no other scripts.',
  'form.reallyAsk': 'Ask all the same?',
  'form.refused': 'Refused: {cause}.',
  'form.room': 'That is not the name of a room.',
  'form.sending': 'Sending. Where the browser asks for a password, nothing is sent before it has one.',
  'form.start': 'A start is a time from 00:00 to 23:59.',
  'form.taken': 'No room: {room} is taken at {slot}.',
  'form.timeReached': 'The greatest logical time is reached: this office takes no more requests. Tell the operator.',
  'form.titleHas': 'This one has {number}.',
  'form.unknownRoom': 'This office does not know the room: the operator has to add it, or exchange with an office that has it.',
  'form.unreadable': 'the request cannot be read',

  // ---- grid

  'grid.alternative': 'Alternative {number}',
  'grid.alternativeAt': 'Alternative {number} {hours}',
  'grid.booking': '{column}, {hours}, {title}, {state}',
  'grid.free': '{column}, {time} free',
  'grid.notFinal': '{hours}, not final',
  'grid.now': 'now, {day} {time}',
  'grid.wish': 'Wish',
  'grid.wishAt': 'Wish {hours}',
  'grid.yourAlternative': '{column}, {time} your alternative {number}',
  'grid.yourWish': '{column}, {time} your wish',

  // ---- grouplist

  'grouplist.all': { one: 'Cancel {count}', other: 'Cancel all {count}' },
  'grouplist.asking': 'Asking',
  'grouplist.became': '{parts}.',
  'grouplist.cancelled': { one: '{count} cancelled', other: '{count} cancelled' },
  'grouplist.done': '{done} of {of}',
  'grouplist.gone': { one: '{count} had been cancelled before, or has no room', other: '{count} had been cancelled before, or have no room' },
  'grouplist.hide': 'Hide them',
  'grouplist.hint': 'What was asked for together, at this office.',
  'grouplist.item': '{day} {hours}, {room}, {title}',
  'grouplist.moved': '{day} {hours}, {room}, {title}, request {id}, {moved}',
  'grouplist.none': 'None yet.',
  'grouplist.notCancelled': 'Not cancelled: {title}, {date} ({cause}); the rest was left.',
  'grouplist.notKept': 'The group’s list at the office is as it was: {cause}.',
  'grouplist.now': 'now {date} {start}',
  'grouplist.older': 'This office keeps no groups: its proxy is an older one.',
  'grouplist.perhapsNot': 'The cancel of {title}, {date} was perhaps not done; the rest was left.',
  'grouplist.request': '{day} {hours}, {room}, {title}, request {id}',
  'grouplist.show': 'Show them',
  'grouplist.span': { one: '{count} request, {from} to {to}.', other: '{count} requests, {from} to {to}.' },
  'grouplist.spanGone': { one: '{count} request, {from} to {to}; none stands from today on.', other: '{count} requests, {from} to {to}; none of them stands from today on.' },
  'grouplist.stopped': { one: 'Stopped: {count} stands.', other: 'Stopped: {count} stand.' },
  'grouplist.sure': { one: 'Cancel {count} request of {title} from today on? It can’t be taken back.', other: 'Cancel all {count} requests of {title} from today on? It can’t be taken back.' },
  'grouplist.sureNo': 'Leave them',
  'grouplist.sureYes': 'Cancel all',
  'grouplist.withdrawn': { one: '{count} without a room withdrawn', other: '{count} without a room withdrawn' },

  // ---- groups

  // ---- importing

  'importing.before': 'asked for before, as request {id}',
  'importing.big': 'The file has more than {size} MB.',
  'importing.many': 'The file has more than {most} bookings: take it in parts.',
  'importing.noRoom': 'it names no room',
  'importing.none': 'The file has no booking.',
  'importing.notHere': '“{place}” is no room of this office',
  'importing.same': 'it is the same as that of line {line}',

  // ---- index

  'index.after': 'After',
  'index.allRooms': 'of all rooms',
  'index.allRoomsCalendar': 'Calendar to subscribe to, of all rooms',
  'index.alternatives': 'Alternatives',
  'index.anyRoom': 'Book the first that is free',
  'index.ask': 'Ask for a room',
  'index.before': 'Before',
  'index.calendar': 'Calendar to subscribe to',
  'index.coming': 'Coming',
  'index.csvFile': 'A CSV or a calendar (.ics)',
  'index.day': 'Day',
  'index.days': 'Days',
  'index.doorDisplay': 'Door display',
  'index.eachFourth': 'fourth week',
  'index.eachMonth': 'month, as on its third Tuesday',
  'index.eachSecond': 'second week',
  'index.eachThird': 'third week',
  'index.eachWeek': 'week',
  'index.equipment': 'Equipment',
  'index.errors': 'Requests that found no room',
  'index.errorsHint': 'And cancels that found no booking, of the room that is chosen above. What is not final may still get a room, unless it is withdrawn.',
  'index.figures': 'Figures',
  'index.file': 'From a file',
  'index.fileHint': 'The first line of a CSV names its columns: room, day, start, stop or length, title, and id if there is one. The file stays in this browser: it is shown what each line would become, and nothing is asked for before you press.',
  'index.fileRoom': 'Room of those that name none of ours',
  'index.find': 'Find a free room',
  'index.from': 'From',
  'index.fromDay': 'From',
  'index.groups': 'Groups',
  'index.inEach': 'In each',
  'index.legend': '{sure} stays, unless it is cancelled. {open} may still move until the offices have met. Press a booking to see or cancel it; press a free time to ask for it, further ones of the same room as alternatives. Arrow keys move about.',
  'index.length': 'Length in minutes',
  'index.list': 'Or on these days alone, as 2026-06-30 or 30.6.2026',
  'index.look': 'Look what is free',
  'index.mail': 'Mail address (may stay empty)',
  'index.mailHint': 'Gets a mail of all that becomes of the request. Nobody can read it here again.',
  'index.many': 'Many at once',
  'index.mine': 'My requests',
  'index.mineHint': 'Those of this browser. A cancel frees the room for later requests; it can’t be taken back.',
  'index.month': 'Month',
  'index.moves': 'A change of a booking was broken off',
  'index.news': 'What became of this office’s requests',
  'index.newsHint': 'Since the offices met. What was told leaves the list at every desk of this office.',
  'index.none': 'none',
  'index.offers': 'What is free instead',
  'index.on': 'On',
  'index.printDoor': 'Print for the door',
  'index.progress': 'How many are done',
  'index.request': 'Request',
  'index.room': 'Room',
  'index.search': 'Search',
  'index.searchFor': 'Title, or a part of it',
  'index.seats': 'Seats, at least',
  'index.skip': 'Go to the request form',
  'index.start': 'Start',
  'index.startOver': 'Start over',
  'index.title': 'Title',
  'index.to': 'To',
  'index.today': 'Today',
  'index.untilDay': 'Until',
  'index.view': 'View',
  'index.week': 'Week',

  // ---- languagemenu

  'languagemenu.automatic': '{name} (auto)',
  'languagemenu.language': 'Language',

  // ---- mail

  'mail.given': 'What becomes of request {id} is mailed to that address.',
  'mail.notTaken': 'The mail address was not taken for request {id} ({cause}): it gets no mails.',
  'mail.ofEach': 'Gets a mail of all that becomes of each request. Nobody can read it here again.',
  'mail.wrong': 'That is no mail address of plain letters, as anna@example.org. Leave it empty for no mails.',

  // ---- many

  'many.again': 'Look again',
  'many.ask': { one: 'Ask for {count}', other: 'Ask for {count}' },
  'many.asking': 'Asking: {done} of {of}.',
  'many.away': 'Put the list away',
  'many.beside': '{words}; {next}',
  'many.broken': { 0: 'This list was broken off: all were asked for.', one: 'This list was broken off: {count} was not asked for.', other: 'This list was broken off: {count} were not asked for.' },
  'many.instead': 'Instead of request {id}',
  'many.insteadWithdrawn': 'Instead of request {id}, which is withdrawn',
  'many.keep': 'Keep the group again',
  'many.list': { one: '{count} in the list: {counts}.', other: '{count} in the list: {counts}.' },
  'many.looking': 'Looking at the sheets: {done} of {of}.',
  'many.noLength': 'A length is a number of minutes from 1 to 1440.',
  'many.noStart': 'A series has a start.',
  'many.noTitle': 'A series has a title.',
  'many.notKept': 'The group is not kept at the office ({cause}), and can’t be cancelled as one yet.',
  'many.notWithdrawn': 'The request before, {id}, is not withdrawn, and may still be booked too.',
  'many.otherWindow': 'Another window of this browser is at work on such a list.',
  'many.sure': { one: '{count} of the list was not asked for. Put it away all the same?', other: '{count} of the list were not asked for. Put it away all the same?' },
  'many.sureNo': 'Leave it',
  'many.sureYes': 'Put it away',
  'many.unsure': 'Look whether it is there',

  // ---- met

  'met.met': 'Met {name} {moment}.',
  'met.metFault': 'Met {name} {moment} ({fault}).',
  'met.never': 'Never met {name}.',
  'met.neverFault': 'Never met {name} ({fault}).',
  'met.silent': 'The office’s service has written nothing since ever.',
  'met.silentSince': 'The office’s service has written nothing since {moment}.',
  'met.waiting': { 0: 'No requests wait to be final.', one: '{count} request waits to be final.', other: '{count} requests wait to be final.' },

  // ---- mine

  'mine.asked': '{room}, asked for {slot}.',
  'mine.askedAs': '{room}, asked for {slot}, request {id}.',
  'mine.cancel': 'Cancel',
  'mine.day': '{day} {requests}',
  'mine.dayLost': '{day} {requests}, {without}',
  'mine.found': 'It has found room by now.',
  'mine.has': '{date} {hours}.',
  'mine.lost': 'It had {slot} and lost it to an earlier request.',
  'mine.noReply': 'No reply came: look at the sheet. It is not sent again.',
  'mine.none': 'None yet.',
  'mine.notKnownYet': 'Nobody knows yet whether this is booked. Take it off this list all the same?',
  'mine.onItsWay': 'On its way',
  'mine.staysBooked': 'The booking stands: taken off this list, it stays booked all the same. To free the room, cancel it.',
  'mine.takeOff': 'Take off this list',
  'mine.takeOffPast': { one: 'Take off {count} of past days', other: 'Take off all {count} of past days' },
  'mine.withoutRoom': '{count} without a room',

  // ---- month

  'month.bookings': { 0: 'no bookings', one: '{count} booking', other: '{count} bookings' },
  'month.hint': 'Press a day to see it. Arrow keys move from day to day.',
  'month.more': { one: 'and {count} more', other: 'and {count} more' },
  'month.notKnown': 'the room is not known here',
  'month.notRead': 'not read yet',
  'month.title': '{room}, {month}',

  // ---- move

  'move.booking': '{room}, {day}, {hours}, request {id}.',
  'move.day': 'Day',
  'move.head': 'Change: {title}',
  'move.length': 'Length in minutes',
  'move.longTitle': 'A title has at most {most} letters.',
  'move.looking': 'Looking at the sheet.',
  'move.noLength': 'A length is a number of minutes.',
  'move.noStart': 'A booking has a day and a start.',
  'move.noTitle': 'A booking has a title.',
  'move.plain': 'Only plain letters can be kept, as “{title}”.',
  'move.room': 'Room',
  'move.send': 'Change it',
  'move.slot': '{room} {hours}',
  'move.start': 'Start',
  'move.title': 'Title',
  'move.unread': 'The sheet of that day can’t be read: {cause}.',

  // ---- movelist

  'movelist.allRight': 'All right',
  'movelist.booked': 'Booked, not final yet: {title}, {slot}, request {id}.',
  'movelist.both': 'Both stand: {from} (request {old}) and {to} (request {new}).',
  'movelist.cancelNew': 'Cancel the new one',
  'movelist.cancelOld': 'Cancel the old one',
  'movelist.done': 'It was done: {to} is booked, as request {id}, and the old booking is gone.',
  'movelist.fellBack': '{to} was taken. It has {slot}, as request {id}, and the old booking is gone.',
  'movelist.leaveBoth': 'Leave both',
  'movelist.neither': 'Neither stands: {from} was cancelled or lost its room, and {to} is not booked.',
  'movelist.neitherWaiting': 'Neither stands: {from} was cancelled or lost its room, and {to} has no room, and may still get one.',
  'movelist.notBooked': 'Not booked: {cause}.',
  'movelist.notDone': 'It was not done: {from} stands as it was.',
  'movelist.notDoneWaiting': 'It was not done: {from} stands as it was. The request for {to} has no room, and may still get one.',
  'movelist.oldCancelled': 'The old booking is cancelled: {slot}.',
  'movelist.perhaps': 'Perhaps not done: {cause}. What stands is looked at again.',
  'movelist.refused': 'Not booked: {refusal}',
  'movelist.renamed': '{slot}, {title}',
  'movelist.slot': '{room}, {day} {hours}',
  'movelist.taken': 'Not booked: {slot} is taken.',
  'movelist.takenBack': 'The new request {id} is taken back; {slot} stands.',
  'movelist.unknown': 'What of it stands is not known yet ({cause}). It is looked at again.',
  'movelist.withdraw': 'Withdraw that request',

  // ---- moving

  'moving.asking': 'Asking for the new one.',
  'moving.back': 'If the new hours are taken by then, the old ones are asked for again.',
  'moving.backAgain': 'Not changed: {why} It has its old hours again, as request {id}.',
  'moving.brokenOff': 'The move was broken off ({cause}). What of it stands is shown at the top of the page.',
  'moving.cancelling': 'Cancelling the old one.',
  'moving.changed': 'Changed: {title}, {slot}, request {id}, in the place of {old}; not final yet.',
  'moving.fellBack': 'Not moved: {slot} was taken meanwhile. It has its old hours again, as request {id}.',
  'moving.gone': 'Not moved: the booking was cancelled or lost its room before. Nothing was asked for.',
  'moving.inGroup': 'The group that it is of has the old request still: {cause}.',
  'moving.isTaken': '{hours} is {title}.',
  'moving.later': 'Until the offices have met the new one is not final: if it loses its room to an earlier request then, the old one is gone all the same.',
  'moving.lost': 'Lost: {why} Its old hours, {slot}, were taken in the same moment. Ask for others.',
  'moving.meanwhile': '{slot} was taken meanwhile.',
  'moving.moved': 'Moved: {title}, {slot}, request {id}, in the place of {old}; not final yet.',
  'moving.newFirst': 'The new one is asked for first, and the old one is cancelled once it is booked.',
  'moving.notSent': 'Not moved: {cause}. Nothing was sent; the booking stands as it was.',
  'moving.oldFirst': 'The new hours meet the old ones, so the old booking is cancelled first: for a moment somebody else may take its hours.',
  'moving.otherWindow': 'Another window of this browser is moving it.',
  'moving.refused': 'Not moved: {refusal} The booking stands as it was.',
  'moving.slot': '{room}, {date} {hours}',
  'moving.taken': 'Not moved: {slot} was taken meanwhile. The booking stands as it was.',

  // ---- needs

  'needs.seats': { one: '{count} seat', other: '{count} seats' },

  // ---- news

  'news.cancelled': { one: '{count} meeting was cancelled by another office', other: '{count} meetings were cancelled by another office' },
  'news.cancelledToo': { one: '{count} was cancelled by another office', other: '{count} were cancelled by another office' },
  'news.found': { one: '{count} meeting found a room after all', other: '{count} meetings found a room after all' },
  'news.foundToo': { one: '{count} found a room after all', other: '{count} found a room after all' },
  'news.lost': { one: '{count} meeting lost its room', other: '{count} meetings lost their room' },
  'news.moved': { one: '{count} meeting moved', other: '{count} meetings moved' },
  'news.movedToo': { one: '{count} moved', other: '{count} moved' },
  'news.notMarked': 'Not marked as told: {cause}. You may press it again.',

  // ---- newslist

  'newslist.all': 'All were told',
  'newslist.bar': '{changes}.',
  'newslist.day': '{day}: {changes}',
  'newslist.found': 'Found a room',
  'newslist.hadCancelled': 'It had {slot}, and was cancelled by another office (request {id}).',
  'newslist.hadLost': 'It had {slot}, and lost it to an earlier request.',
  'newslist.hasRoom': 'It has a room by now: {slot}.',
  'newslist.hide': 'Hide the list',
  'newslist.lost': 'Lost its room',
  'newslist.mayChange': 'It may still change until the offices have met.',
  'newslist.mayGet': 'It may still get a room until the offices have met.',
  'newslist.more': 'Show {number} more',
  'newslist.moved': 'Moved',
  'newslist.noRoom': 'It has no room.',
  'newslist.reallyAll': 'All {number} of {day} were told? They leave the list at all desks of this office.',
  'newslist.request': '{room}, request {id}.',
  'newslist.show': 'Show the list',
  'newslist.then': '{before} Then: {after}',
  'newslist.told': 'I have told them',
  'newslist.toldAll': 'I have told all {number} of this day',
  'newslist.wanted': 'It wanted {slot}, and has no room.',
  'newslist.wasCancelled': 'It was cancelled by another office (request {id}).',
  'newslist.withdrawn': 'It is withdrawn.',

  // ---- offers

  'offers.freeIn': 'Free in {room}:',
  'offers.none': 'Nothing of that length is free on {day} in any room.',
  'offers.notWithdrawn': 'The request before, {id}, is not withdrawn, and may still be booked too. Press Withdraw at it, under My requests.',
  'offers.reallyWithdraw': 'Request {id} ({title}, {room}) has no room, and may still get one. Withdraw it, now that another one is booked?',
  'offers.withdraw': 'Withdraw it',

  // ---- office

  'office.notKnownHere': '(the room is not known here)',
  'office.rooms': 'Rooms',

  // ---- plan

  'plan.bad': 'Can’t be asked for',
  'plan.clash': 'Taken',
  'plan.countBad': { one: '{count} can’t be asked for', other: '{count} can’t be asked for' },
  'plan.countBooked': { one: '{count} booked, not final yet', other: '{count} booked, not final yet' },
  'plan.countClash': { one: '{count} taken', other: '{count} taken' },
  'plan.countFree': { one: '{count} free', other: '{count} free' },
  'plan.countNone': { one: '{count} no room', other: '{count} no room' },
  'plan.countPast': { one: '{count} past', other: '{count} past' },
  'plan.countPerhaps': { one: '{count} perhaps booked', other: '{count} perhaps booked' },
  'plan.countRefused': { one: '{count} refused', other: '{count} refused' },
  'plan.countThere': { one: '{count} there already', other: '{count} there already' },
  'plan.countUnread': { one: '{count} not looked at', other: '{count} not looked at' },
  'plan.free': 'Free',
  'plan.isTaken': '{hours} is {title}',
  'plan.longTitle': 'its title has {length} letters, and may have {most}',
  'plan.noDay': '“{day}” is no day from 1990 to 2099',
  'plan.noPlainLetter': 'its title has no plain letter',
  'plan.noTitle': 'it has no title',
  'plan.ofList': '{title} of this list',
  'plan.past': 'Past',
  'plan.refused': 'Refused',
  'plan.request': 'request {id}',
  'plan.there': 'There already',
  'plan.unknownRoom': 'this office does not know the room {room}',
  'plan.unread': 'Not looked at',

  // ---- planlist

  'planlist.askFor': 'Ask for {date}, {slot}',
  'planlist.item': '{day} {hours}, {room}, {title}',
  'planlist.line': 'Line {line}: {what}',
  'planlist.more': 'Show more of {of}',
  'planlist.nothing': 'Nothing of that length is free on that day.',
  'planlist.reason': '{words}.',
  'planlist.reasons': '{words}; {note}.',
  'planlist.slot': '{room} {hours}',
  'planlist.take': 'Take {date}, {slot}',
  'planlist.whatIsFree': 'What is free?',
  'planlist.whatIsFreeAt': 'What is free? {day} {hours}',

  // ---- print

  'print.asOf': '{office}, as of {day} {time}',
  'print.code': 'The page of this day',
  'print.none': 'No bookings.',
  'print.notRead': 'No sheet was read.',

  // ---- readcsv

  'readcsv.cells': 'it has {cells} cells, and the first line {columns}',
  'readcsv.head': 'The first line has to name the columns: room, day, start, stop or length, title, and id if there is one.',
  'readcsv.noDay': '“{text}” is no day as 2026-06-30 or 30.6.2026',
  'readcsv.open': 'its quotes are not closed, and all that follows is within them',
  'readcsv.otherDay': 'it ends on another day',

  // ---- readical

  'readical.cancelled': 'it is cancelled',
  'readical.cutOff': 'it is cut off',
  'readical.endless': 'it recurs without an end: those of a year are in the list',
  'readical.midnight': 'it goes on over midnight, and a booking ends there at the latest',
  'readical.noDuration': '“{value}” is no duration',
  'readical.noEnd': 'it has neither an end nor a duration',
  'readical.noMoment': '“{value}” is no moment',
  'readical.noStart': 'it has no start',
  'readical.none': 'The file has no event.',
  'readical.notMeeting': 'a {kind} is no meeting',
  'readical.rules': 'it recurs by more than one rule, which can’t be read here',
  'readical.seconds': 'it does not begin and end at a whole minute',
  'readical.wholeDays': 'it is of whole days, and a booking has hours',
  'readical.zone': 'its zone “{name}” is not known',

  // ---- recurs

  'recurs.freq': 'its rule has no such FREQ: {freq}',
  'recurs.often': 'it recurs more than {most} times',
  'recurs.strange': 'its rule has {part}, which can’t be read here',
  'recurs.unreadable': 'its rule can’t be read here',

  // ---- run

  'run.item': '{title}, {room}, {date} {start}',
  'run.noMails': 'its mail address was not taken ({cause}), so that it gets no mails',
  'run.noReply': 'No reply ({cause}) to the request for {item}, which is not on the sheet now. Look at the sheet before you go on.',
  'run.notAsked': 'it was not asked for',
  'run.notSent': '{cause}. Nothing was sent for {item}.',

  // ---- search

  'search.days': { one: '{count} day', other: '{count} days' },
  'search.found': { 0: 'Nothing found.', one: '{count} found.', other: '{count} found.' },
  'search.foundMore': { one: '{count} found; the first {shown} are shown.', other: '{count} found; the first {shown} are shown.' },
  'search.hint': { 0: 'Looks through what this browser has read: 0 sheets of 0 days. A month or the coming bookings of a room, once shown, add theirs.', one: 'Looks through what this browser has read: {count} sheet of {days}, from {from} to {to}. A month or the coming bookings of a room, once shown, add theirs.', other: 'Looks through what this browser has read: {count} sheets of {days}, from {from} to {to}. A month or the coming bookings of a room, once shown, add theirs.' },
  'search.showOf': 'Show the day: {title}, {where}',

  // ---- sending

  'sending.refused': '{cause}.',

  // ---- series

  'series.backwards': 'The last day is before the first.',
  'series.many': 'That is more than {most} days.',
  'series.noDay': 'The list has no day.',
  'series.noSpan': 'A series has a first and a last day, from 1990 to 2099.',
  'series.noWeekday': 'On which weekdays?',
  'series.none': 'None of these days is in the series.',

  // ---- states

  'states.areTaken': 'All its hours are taken. It may still get a room until the offices have met; if you can do without it, withdraw it.',
  'states.booked': 'Booked',
  'states.cancelled': 'Cancelled',
  'states.cancelledBy': 'Request {id} cancelled it.',
  'states.cancelledByOpen': 'Request {id} cancelled it; not final yet.',
  'states.knownNoMore': 'This office does not know the request any more. Tell the operator.',
  'states.mayMove': 'It may still move until the offices have met.',
  'states.noRoom': 'No room',
  'states.notFinal': 'Booked, not final yet',
  'states.perhaps': 'Perhaps booked',
  'states.unknown': 'Not known',
  'states.wereTaken': 'All its hours were taken.',
  'states.withdrawn': 'Withdrawn',
  'states.withdrawnBy': 'Request {id} withdrew it: it had no room, and gets none any more.',

  // ---- texts

  'texts.day': '{weekday} {date}',

  // ---- wish

  'wish.alternativesOf': 'Your alternatives are for {room}.',
  'wish.changeRoom': 'Change the room',
  'wish.clash': '{start} to {stop} is {title}.',
  'wish.goOn': 'Go on: {room}, {hours}',
  'wish.held': { 0: 'Your wish is {room}, {slot}.', one: 'Your wish is {room}, {slot}, with {count} more.', other: 'Your wish is {room}, {slot}, with {count} more.' },
  'wish.letters': '{number} of {most} letters',
  'wish.oneRoom': 'A request is for one room. Ask for {room}, {slot} instead?',
  'wish.reallyAgain': 'What is filled in goes. Ask for {title} again?',
  'wish.takeBack': 'Take back',
  'wish.takeBackSlot': 'Take back {slot}',
  'wish.when': '{day}, {hours}',

  // ---- written

  'written.midnight': 'a meeting ends at midnight at the latest',
  'written.noEnd': 'it has neither a stop nor a length',
  'written.noLength': '“{text}” is no length in minutes',
  'written.noTime': '“{text}” is no time of day',
  'written.twoLengths': 'its length and its stop are not the same',
});
