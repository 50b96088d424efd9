// The words of the page in German. What the keys and the templates mean stands in words.js. A section for each module; one key a line.
export default Object.freeze({
  // ---- all

  'all.askAgain': 'Erneut anfragen',
  'all.askFor': '{what} anfragen',
  'all.backwards': 'das Ende liegt nicht nach dem Beginn',
  'all.change': 'Ändern',
  'all.close': 'Schließen',
  'all.dayTime': '{day}, {time}',
  'all.labelled': '{words} – {title}',
  'all.leaveIt': 'So lassen',
  'all.midnight': 'Ein Termin endet spätestens um Mitternacht.',
  'all.moved': 'Verschoben vom {from} auf den {to}.',
  'all.no': 'Nein',
  'all.notRead': 'Noch nicht geladen.',
  'all.outcome': '{state}: {where} (Anfrage {id}).',
  'all.requests': { one: '{count} Anfrage', other: '{count} Anfragen' },
  'all.showDay': 'Tag anzeigen',
  'all.slot': '{date} um {start}',
  'all.stop': 'Anhalten',
  'all.takePlain': '„{title}“ übernehmen',
  'all.titleRule': 'Ein Titel hat 1 bis {most} einfache Buchstaben, Ziffern und Zeichen.',
  'all.unknownRoom': 'Dieser Standort kennt den Raum nicht.',
  'all.where': '{room}, {day}, {hours}',
  'all.withdraw': 'Zurückziehen',

  // ---- fault

  'fault.failing': 'Datenträger oder Arbeitsspeicher versagt: {cause}',
  'fault.mayNotBook': 'dieser Benutzer darf nicht buchen, oder das Passwort wurde abgelehnt',
  'fault.noReply': 'keine Antwort',
  'fault.noRooms': 'rooms.json ist kein JSON',
  'fault.notTaking': 'der Standort nimmt gerade keine Anfragen an',
  'fault.password': 'das Passwort wurde abgelehnt',
  'fault.status': 'Status {status}',
  'fault.unreadable': 'die Anfrage ist nicht lesbar',

  // ---- acts

  'acts.book': 'Für {length} min buchen',
  'acts.booked': 'Gebucht bis {time}.',
  'acts.checkIn': 'Einchecken',
  'acts.checkInBy': 'Einchecken bis {time}',
  'acts.checkedIn': 'Eingecheckt: {title}.',
  'acts.end': 'Jetzt beenden',
  'acts.ended': 'Beendet: {title}.',
  'acts.late': 'Nicht gebucht: Jemand war einen Augenblick schneller.',
  'acts.notBooked': 'Nicht gebucht ({cause}).',
  'acts.notDone': 'Nicht ausgeführt ({cause}).',
  'acts.notEnded': 'Nicht beendet ({cause}).',
  'acts.perhapsDone': 'Vielleicht ausgeführt ({cause}): Die nächste Anzeige zeigt es.',
  'acts.reallyEnd': 'Wirklich beenden?',
  'acts.released': 'Um {time} freigegeben: Niemand hat für „{title}“ eingecheckt.',

  // ---- anyroom

  'anyroom.allGone': 'Nicht gebucht: Was frei war, ist inzwischen belegt.',
  'anyroom.asking': { 0: 'Angefragt wird {where}.', one: 'Angefragt wird {where}, da ein anderer Raum inzwischen belegt ist.', other: 'Angefragt wird {where}, da {count} andere inzwischen belegt sind.' },
  'anyroom.noneFree': 'Nicht gebucht: So lange ist kein Raum frei.',
  'anyroom.notBooked': 'Nicht gebucht ({cause}).',
  'anyroom.notSent': 'Nicht gebucht ({cause}). Es wurde nichts gesendet; Sie können es noch einmal versuchen.',
  'anyroom.perhaps': 'Vielleicht gebucht ({cause}): Sehen Sie im Tagesplan nach, bevor Sie erneut anfragen.',
  'anyroom.perhapsBooked': 'Vielleicht gebucht: {where} ({cause}). Sehen Sie im Tagesplan nach, bevor Sie erneut anfragen.',
  'anyroom.stillWaits': 'Anfrage {id} hat keinen Raum gefunden und kann noch einen bekommen: Ziehen Sie sie unter „Meine Anfragen“ zurück, bevor Sie erneut anfragen.',

  // ---- box

  'box.cancel': 'Diese Buchung stornieren',
  'box.request': 'Anfrage {id}.',
  'box.seen': 'So angezeigt seit {time}.',

  // ---- cancel

  'cancel.cancelNotSent': 'Nicht storniert ({cause}). Es wurde nichts gesendet; Sie können noch einmal auf „Stornieren“ drücken.',
  'cancel.cancelled': 'Storniert: {title}, durch Anfrage {id}; noch nicht endgültig.',
  'cancel.cancelling': 'Wird storniert',
  'cancel.hadRoom': 'Inzwischen war ein Raum gefunden, die Buchung ist storniert: {title}, durch Anfrage {id}; noch nicht endgültig.',
  'cancel.notCancelled': 'Nicht storniert ({cause}).',
  'cancel.notWithdrawn': 'Nicht zurückgezogen ({cause}).',
  'cancel.nothing': 'Es gab keine Buchung zu stornieren: {title}. Findet die Anfrage später einen Raum, wird die Buchung dann storniert.',
  'cancel.numbersUsed': 'die Nummern dieses Servers sind aufgebraucht; bitte melden Sie es dem Betreiber',
  'cancel.perhapsCancelled': 'Vielleicht storniert ({cause}): Der Stand hier zeigt es.',
  'cancel.perhapsWithdrawn': 'Vielleicht zurückgezogen ({cause}): Der Stand hier zeigt es.',
  'cancel.reallyCancel': 'Wirklich stornieren?',
  'cancel.reallyWithdraw': 'Wirklich zurückziehen?',
  'cancel.timeReached': 'die höchste logische Zeit ist erreicht; bitte melden Sie es dem Betreiber',
  'cancel.unknownRequest': 'dieser Standort kennt die Anfrage nicht',
  'cancel.unknownRoom': 'dieser Standort kennt den Raum nicht',
  'cancel.withdrawNotSent': 'Nicht zurückgezogen ({cause}). Es wurde nichts gesendet; Sie können noch einmal auf „Zurückziehen“ drücken.',
  'cancel.withdrawing': 'Wird zurückgezogen',
  'cancel.withdrawn': 'Zurückgezogen: {title}, durch Anfrage {id}. Dafür gibt es keinen Raum mehr.',

  // ---- coming

  'coming.none': 'Keine Buchungen an diesen Tagen.',
  'coming.title': '{room}, {from} bis {to}',
  'coming.unread': { one: '{count} Tag ist noch nicht geladen.', other: '{count} Tage sind noch nicht geladen.' },

  // ---- desk

  'desk.find': 'Freie Räume, {day}',
  'desk.fresh': 'Stand: {time}; wird alle 30 Sekunden aktualisiert.',
  'desk.lost': 'Keine Verbindung zum Standort seit {time} ({cause}).',
  'desk.noDay': 'Den Tag {day} gibt es nicht; gezeigt wird der heutige.',
  'desk.noRoom': 'Den Raum {room} gibt es nicht.',
  'desk.noSheet': 'Es ist kein Tagesplan vorhanden.',
  'desk.noView': 'Die Ansicht {view} gibt es nicht.',
  'desk.old': 'Die Anzeige ist veraltet (Stand: {time}).',
  'desk.search': 'Suche',
  'desk.stale': 'Veraltet (Stand: {time}); es wird weiter abgefragt.',
  'desk.times': 'Alle Zeiten sind Ortszeiten der Räume.',
  'desk.timesOfZone': 'Alle Zeiten sind Ortszeiten der Räume ({zone}).',
  'desk.zoneUnknown': 'Dieser Browser kennt die Zeitzone {zone} nicht; welcher Tag heute ist, sagt seine eigene Uhr.',

  // ---- door

  'door.code': 'Ein Code, der die Seite dieses Raums öffnet: {address}',
  'door.door': 'Tür',
  'door.free': 'Frei',
  'door.next': 'Danach: {hours} {title}',
  'door.nextDay': 'Danach: {weekday}, {hours} {title}',
  'door.noNews': 'Keine Verbindung und noch keine Daten',
  'door.nothingElse': 'Heute nichts mehr',
  'door.nothingKnown': 'Für heute ist noch nichts bekannt.',
  'door.now': 'Dieser Raum jetzt',
  'door.oldNews': 'Keine Verbindung. Stand: {time}',
  'door.restOfDay': 'für den Rest des Tages',
  'door.taken': 'Belegt',
  'door.until': 'bis {time}',
  'door.whichRoom': 'Welcher Raum?',

  // ---- elsewhere

  'elsewhere.add': 'Wer diesen Standort betreut, fügt ihm mit rooms-office add-room einen Raum hinzu.',
  'elsewhere.hide': 'Ausblenden',
  'elsewhere.known': 'Nicht auf dieser Seite: {rooms}.',
  'elsewhere.room': '{label} (Standort {office})',
  'elsewhere.unknown': { one: 'Ein anderer Standort hat: {rooms}. Hier ist der Raum noch nicht bekannt und kann noch nicht gebucht werden.', other: 'Ein anderer Standort hat: {rooms}. Hier sind die Räume noch nicht bekannt und können noch nicht gebucht werden.' },

  // ---- errorlist

  'errorlist.cancel': '{id}, eine Stornierung, zu der es keine Buchung {target} gab',
  'errorlist.cancelOpen': '{id}, eine Stornierung, zu der es keine Buchung {target} gab (noch nicht endgültig)',
  'errorlist.none': '(keine)',
  'errorlist.request': '{id}: {date}, {hours}, {title}',
  'errorlist.requestOpen': '{id}: {date}, {hours}, {title} (noch nicht endgültig)',
  'errorlist.withdrawn': '{id}: {date}, {hours}, {title} (noch nicht endgültig), zurückgezogen durch Anfrage {by}',

  // ---- figures

  'figures.all': 'Gesamt',
  'figures.allRooms': 'Alle Räume',
  'figures.booked': 'Gebucht',
  'figures.bookings': 'Buchungen',
  'figures.byMonth': 'Nach Monat',
  'figures.byRoom': 'Nach Raum',
  'figures.byWeekday': 'Nach Wochentag',
  'figures.day': 'Tag',
  'figures.desk': 'Zum Empfang',
  'figures.drawing': 'Alles als Grafik',
  'figures.figures': 'Auswertung',
  'figures.from': 'Von',
  'figures.hint': 'Als gebucht zählen die Stunden innerhalb der Öffnungszeiten; die übrigen stehen daneben. Was keinen Raum fand und nicht zurückgezogen wurde, zählt für den gewünschten Tag; was ein Abgleich verschoben oder verdrängt hat, wird nur für die eigenen Anfragen dieses Standorts aus den letzten Wochen gezählt.',
  'figures.hours': '{hours} h',
  'figures.lost': 'Beim Abgleich verloren',
  'figures.month': 'Monat',
  'figures.moved': 'Beim Abgleich verschoben',
  'figures.noRoom': 'Ohne Raum',
  'figures.none': 'Es gibt noch keine Auswertung: Der Dienst des Standorts schreibt sie einige Minuten nach seinem Start.',
  'figures.noneOrLost': 'Es gibt noch keine Auswertung oder keine Verbindung: Der Dienst des Standorts schreibt sie einige Minuten nach seinem Start.',
  'figures.nothing': 'Für diese Monate liegt nichts vor.',
  'figures.open': 'Geöffnet',
  'figures.outside': 'Außerhalb der Öffnungszeiten',
  'figures.pages': 'Seiten',
  'figures.part': 'Auslastung',
  'figures.percent': '{percent} %',
  'figures.room': 'Raum',
  'figures.table': 'Alles als Tabelle (CSV, in Minuten)',
  'figures.to': 'Bis',
  'figures.what': 'Wie die Räume genutzt werden',

  // ---- filepart

  'filepart.none': 'Keiner',
  'filepart.unreadable': 'Die Datei ist nicht lesbar.',

  // ---- find

  'find.ask': 'Bitte eine Dauer in Minuten und zwei Uhrzeiten angeben.',
  'find.none': 'Kein Raum hat all das.',
  'find.notFree': 'Nicht so lange frei.',
  'find.take': '{room} ist frei am {day}, {hours}: anfragen',

  // ---- form

  'form.allTaken': 'Kein Raum: {room} ist am {slot} und bei jeder Alternative belegt.',
  'form.alternative': 'Das ist Alternative {number}: Der {slot} war belegt.',
  'form.askAllTheSame': 'Trotzdem anfragen',
  'form.choices': 'Höchstens 16 Alternativen.',
  'form.day': 'Das ist kein Tag von 1990 bis 2099.',
  'form.length': 'Die Dauer ist eine ganze Zahl von 1 bis 1440 Minuten, und bei jeder Wahl endet der Termin spätestens um Mitternacht.',
  'form.mayGet': 'Bis die Standorte sich abgeglichen haben, kann die Anfrage noch einen bekommen. Nehmen Sie stattdessen ein Angebot an, wird sie zurückgezogen.',
  'form.notSent': 'Nicht gebucht ({cause}). Es wurde nichts gesendet; Sie können noch einmal auf „Anfragen“ drücken.',
  'form.numbersUsed': 'Die Nummern dieses Servers sind aufgebraucht: Der Standort braucht ein neues Replikat. Bitte melden Sie es dem Betreiber.',
  'form.past': '{date}, {hours} ist vorbei. Trotzdem anfragen?',
  'form.perhaps': 'Vielleicht gebucht ({cause}): Sehen Sie im Tagesplan nach, bevor Sie erneut anfragen. Von selbst wird nichts noch einmal gesendet.',
  'form.plainOnly': 'Es können nur einfache Buchstaben gespeichert werden, keine Umlaute, keine Akzente und keine anderen Schriften.',
  'form.reallyAsk': 'Trotzdem anfragen?',
  'form.refused': 'Abgelehnt ({cause}).',
  'form.room': 'Das ist kein Name eines Raums.',
  'form.sending': 'Wird gesendet. Fragt der Browser nach einem Passwort, wird nichts gesendet, bevor er eines hat.',
  'form.start': 'Der Beginn ist eine Uhrzeit von 00:00 bis 23:59.',
  'form.taken': 'Kein Raum: {room} ist am {slot} belegt.',
  'form.timeReached': 'Die höchste logische Zeit ist erreicht: Dieser Standort nimmt keine Anfragen mehr an. Bitte melden Sie es dem Betreiber.',
  'form.titleHas': 'Dieser hat {number}.',
  'form.unknownRoom': 'Dieser Standort kennt den Raum nicht: Der Betreiber muss ihn hinzufügen oder mit einem Standort abgleichen, der ihn hat.',
  'form.unreadable': 'die Anfrage ist nicht lesbar',

  // ---- grid

  'grid.alternative': 'Alternative {number}',
  'grid.alternativeAt': 'Alternative {number}: {hours}',
  'grid.booking': '{column}, {hours}, {title}, {state}',
  'grid.free': '{column}, {time}, frei',
  'grid.notFinal': '{hours}, nicht endgültig',
  'grid.now': 'jetzt: {day}, {time}',
  'grid.wish': 'Wunsch',
  'grid.wishAt': 'Wunsch: {hours}',
  'grid.yourAlternative': '{column}, {time}, Ihre Alternative {number}',
  'grid.yourWish': '{column}, {time}, Ihr Wunsch',

  // ---- grouplist

  'grouplist.all': { one: 'Stornieren', other: 'Alle {count} stornieren' },
  'grouplist.asking': 'Wird geprüft',
  'grouplist.became': '{parts}.',
  'grouplist.cancelled': { one: '{count} storniert', other: '{count} storniert' },
  'grouplist.done': '{done} von {of}',
  'grouplist.gone': { one: '{count} schon vorher storniert oder ohne Raum', other: '{count} schon vorher storniert oder ohne Raum' },
  'grouplist.hide': 'Ausblenden',
  'grouplist.hint': 'Was an diesem Standort zusammen angefragt wurde.',
  'grouplist.item': '{day}, {hours}, {room}, {title}',
  'grouplist.moved': '{day}, {hours}, {room}, {title}, Anfrage {id}, {moved}',
  'grouplist.none': 'Noch keine.',
  'grouplist.notCancelled': 'Nicht storniert: {title}, {date} ({cause}); der Rest blieb unverändert.',
  'grouplist.notKept': 'Die Liste der Gruppe am Standort ist noch die bisherige ({cause}).',
  'grouplist.now': 'jetzt {date}, {start}',
  'grouplist.older': 'Dieser Standort speichert keine Gruppen: Sein Proxy ist noch auf einem älteren Stand.',
  'grouplist.perhapsNot': 'Die Stornierung von {title}, {date}, wurde vielleicht nicht ausgeführt; der Rest blieb unverändert.',
  'grouplist.request': '{day}, {hours}, {room}, {title}, Anfrage {id}',
  'grouplist.show': 'Anzeigen',
  'grouplist.span': { one: '{count} Anfrage am {from}.', other: '{count} Anfragen, {from} bis {to}.' },
  'grouplist.spanGone': { one: '{count} Anfrage am {from}; ab heute besteht keine mehr.', other: '{count} Anfragen, {from} bis {to}; ab heute besteht keine mehr.' },
  'grouplist.stopped': { one: 'Angehalten: {count} besteht noch.', other: 'Angehalten: {count} bestehen noch.' },
  'grouplist.sure': { one: 'Von „{title}“ {count} Anfrage ab dem heutigen Tag stornieren? Das lässt sich nicht rückgängig machen.', other: 'Von „{title}“ alle {count} Anfragen ab dem heutigen Tag stornieren? Das lässt sich nicht rückgängig machen.' },
  'grouplist.sureNo': 'Nicht stornieren',
  'grouplist.sureYes': 'Alle stornieren',
  'grouplist.withdrawn': { one: '{count} ohne Raum zurückgezogen', other: '{count} ohne Raum zurückgezogen' },

  // ---- groups

  // ---- importing

  'importing.before': 'schon früher angefragt, als Anfrage {id}',
  'importing.big': 'Die Datei hat mehr als {size} MB.',
  'importing.many': 'Die Datei hat mehr als {most} Buchungen: Teilen Sie sie auf.',
  'importing.noRoom': 'nennt keinen Raum',
  'importing.none': 'Die Datei enthält keine Buchung.',
  'importing.notHere': '„{place}“ ist kein Raum dieses Standorts',
  'importing.same': 'dasselbe wie in Zeile {line}',

  // ---- index

  'index.after': 'Weiter',
  'index.allRooms': 'für alle Räume',
  'index.allRoomsCalendar': 'Kalender abonnieren, für alle Räume',
  'index.alternatives': 'Alternativen',
  'index.anyRoom': 'Den ersten freien Raum buchen',
  'index.ask': 'Raum anfragen',
  'index.before': 'Zurück',
  'index.calendar': 'Kalender abonnieren',
  'index.coming': 'Demnächst',
  'index.csvFile': 'Eine CSV-Datei oder ein Kalender (.ics)',
  'index.day': 'Tag',
  'index.days': 'Tage',
  'index.doorDisplay': 'Türanzeige',
  'index.eachFourth': 'jede vierte Woche',
  'index.eachMonth': 'jeden Monat, etwa am dritten Dienstag',
  'index.eachSecond': 'jede zweite Woche',
  'index.eachThird': 'jede dritte Woche',
  'index.eachWeek': 'jede Woche',
  'index.equipment': 'Ausstattung',
  'index.errors': 'Anfragen, die keinen Raum fanden',
  'index.errorsHint': 'Auch Stornierungen, zu denen es keine Buchung gab, für den oben gewählten Raum. Was noch nicht endgültig ist, kann noch einen Raum bekommen, wenn es nicht zurückgezogen wird.',
  'index.figures': 'Auswertung',
  'index.file': 'Aus einer Datei',
  'index.fileHint': 'Die erste Zeile einer CSV-Datei nennt die Spalten: Raum, Datum, Beginn, Ende oder Dauer, Titel und, falls vorhanden, id. Die Datei bleibt in diesem Browser: Es wird gezeigt, was aus jeder Zeile würde, und nichts wird angefragt, bevor Sie es auslösen.',
  'index.fileRoom': 'Raum für Einträge ohne bekannten Raum',
  'index.find': 'Freien Raum finden',
  'index.from': 'Von',
  'index.fromDay': 'Von',
  'index.groups': 'Gruppen',
  'index.inEach': 'Wie oft',
  'index.legend': '{sure} bleibt bestehen, sofern nicht storniert wird. {open} kann sich noch verschieben, bis die Standorte sich abgeglichen haben. Wählen Sie eine Buchung, um sie zu sehen oder zu stornieren; wählen Sie eine freie Zeit, um sie anzufragen, und weitere desselben Raums als Alternativen. Mit den Pfeiltasten bewegen Sie sich im Plan.',
  'index.length': 'Dauer in Minuten',
  'index.list': 'Oder nur an diesen Tagen, etwa 2026-06-30 oder 30.6.2026',
  'index.look': 'Prüfen, was frei ist',
  'index.mail': 'E-Mail-Adresse (kann leer bleiben)',
  'index.mailHint': 'Erhält eine E-Mail zu allem, was aus der Anfrage wird. Die Adresse ist hier danach für niemanden mehr lesbar.',
  'index.many': 'Mehrere auf einmal',
  'index.mine': 'Meine Anfragen',
  'index.mineHint': 'Die Anfragen dieses Browsers. Eine Stornierung gibt den Raum für spätere Anfragen frei und lässt sich nicht rückgängig machen.',
  'index.month': 'Monat',
  'index.moves': 'Die Änderung einer Buchung wurde unterbrochen',
  'index.news': 'Was aus den Anfragen dieses Standorts wurde',
  'index.newsHint': 'Seit dem Abgleich der Standorte. Was mitgeteilt wurde, verschwindet an jedem Empfang dieses Standorts aus der Liste.',
  'index.none': 'keine',
  'index.offers': 'Was stattdessen frei ist',
  'index.on': 'An diesen Wochentagen',
  'index.printDoor': 'Für die Tür drucken',
  'index.progress': 'Wie viele erledigt sind',
  'index.request': 'Anfragen',
  'index.room': 'Raum',
  'index.search': 'Suchen',
  'index.searchFor': 'Titel oder ein Teil davon',
  'index.seats': 'Plätze, mindestens',
  'index.skip': 'Zum Formular für Anfragen',
  'index.start': 'Beginn',
  'index.startOver': 'Neu beginnen',
  'index.title': 'Titel',
  'index.to': 'Bis',
  'index.today': 'Heute',
  'index.untilDay': 'Bis',
  'index.view': 'Ansicht',
  'index.week': 'Woche',

  // ---- languagemenu

  'languagemenu.automatic': '{name} (auto)',
  'languagemenu.language': 'Sprache',

  // ---- mail

  'mail.given': 'Was aus Anfrage {id} wird, geht per E-Mail an diese Adresse.',
  'mail.notTaken': 'Die E-Mail-Adresse wurde für Anfrage {id} nicht angenommen ({cause}): Es gehen keine E-Mails dazu hinaus.',
  'mail.ofEach': 'Erhält zu jeder Anfrage eine E-Mail über alles, was aus ihr wird. Die Adresse ist hier danach für niemanden mehr lesbar.',
  'mail.wrong': 'Das ist keine E-Mail-Adresse aus einfachen Buchstaben wie anna@example.org. Lassen Sie das Feld leer, wenn Sie keine E-Mails möchten.',

  // ---- many

  'many.again': 'Erneut prüfen',
  'many.ask': { one: '{count} Anfrage senden', other: '{count} Anfragen senden' },
  'many.asking': 'Anfragen werden gesendet: {done} von {of}.',
  'many.away': 'Liste schließen',
  'many.beside': '{words}; {next}',
  'many.broken': { 0: 'Diese Liste wurde unterbrochen: Alle Anfragen waren schon gesendet.', one: 'Diese Liste wurde unterbrochen: {count} Anfrage wurde noch nicht gesendet.', other: 'Diese Liste wurde unterbrochen: {count} Anfragen wurden noch nicht gesendet.' },
  'many.instead': 'Anstelle von Anfrage {id}',
  'many.insteadWithdrawn': 'Anstelle von Anfrage {id}, die zurückgezogen ist',
  'many.keep': 'Gruppe erneut speichern',
  'many.list': { one: '{count} Eintrag in der Liste: {counts}.', other: '{count} Einträge in der Liste: {counts}.' },
  'many.looking': 'Tagespläne werden geprüft: {done} von {of}.',
  'many.noLength': 'Die Dauer ist eine ganze Zahl von 1 bis 1440 Minuten.',
  'many.noStart': 'Eine Serie braucht einen Beginn.',
  'many.noTitle': 'Eine Serie braucht einen Titel.',
  'many.notKept': 'Die Gruppe ist am Standort nicht gespeichert ({cause}) und lässt sich noch nicht als Ganzes stornieren.',
  'many.notWithdrawn': 'Die vorige Anfrage, {id}, ist nicht zurückgezogen und kann ebenfalls noch gebucht werden.',
  'many.otherWindow': 'Ein anderes Fenster dieses Browsers arbeitet gerade an einer solchen Liste.',
  'many.sure': { one: '{count} Anfrage der Liste wurde nicht gesendet. Die Liste trotzdem schließen?', other: '{count} Anfragen der Liste wurden nicht gesendet. Die Liste trotzdem schließen?' },
  'many.sureNo': 'Offen lassen',
  'many.sureYes': 'Schließen',
  'many.unsure': 'Prüfen, ob sie angekommen ist',

  // ---- met

  'met.met': 'Abgleich mit {name}: {moment}.',
  'met.metFault': 'Abgleich mit {name}: {moment} ({fault}).',
  'met.never': 'Noch kein Abgleich mit {name}.',
  'met.neverFault': 'Noch kein Abgleich mit {name} ({fault}).',
  'met.silent': 'Der Dienst des Standorts hat noch nie etwas geschrieben.',
  'met.silentSince': 'Der Dienst des Standorts hat seit {moment} nichts geschrieben.',
  'met.waiting': { 0: 'Keine Anfrage wartet darauf, endgültig zu werden.', one: '{count} Anfrage ist noch nicht endgültig.', other: '{count} Anfragen sind noch nicht endgültig.' },

  // ---- mine

  'mine.asked': '{room}, angefragt für den {slot}.',
  'mine.askedAs': '{room}, angefragt für den {slot}, Anfrage {id}.',
  'mine.cancel': 'Stornieren',
  'mine.day': '{day}: {requests}',
  'mine.dayLost': '{day}: {requests}, {without}',
  'mine.found': 'Inzwischen wurde ein Raum gefunden.',
  'mine.has': '{date}, {hours}.',
  'mine.lost': 'War für den {slot} gebucht und ging an eine frühere Anfrage verloren.',
  'mine.noReply': 'Es kam keine Antwort: Sehen Sie im Tagesplan nach. Die Anfrage wird nicht noch einmal gesendet.',
  'mine.none': 'Noch keine.',
  'mine.notKnownYet': 'Noch weiß niemand, ob das gebucht ist. Trotzdem von der Liste nehmen?',
  'mine.onItsWay': 'Wird gesendet',
  'mine.staysBooked': 'Die Buchung besteht: Auch wenn sie nicht mehr auf dieser Liste steht, bleibt der Raum gebucht. Um ihn freizugeben, stornieren Sie die Buchung.',
  'mine.takeOff': 'Von der Liste nehmen',
  'mine.takeOffPast': { one: '{count} Anfrage vergangener Tage von der Liste nehmen', other: 'Alle {count} vergangener Tage von der Liste nehmen' },
  'mine.withoutRoom': '{count} ohne Raum',

  // ---- month

  'month.bookings': { 0: 'keine Buchungen', one: '{count} Buchung', other: '{count} Buchungen' },
  'month.hint': 'Wählen Sie einen Tag, um ihn zu sehen. Die Pfeiltasten führen von Tag zu Tag.',
  'month.more': { one: 'und {count} weitere', other: 'und {count} weitere' },
  'month.notKnown': 'der Raum ist hier nicht bekannt',
  'month.notRead': 'noch nicht geladen',
  'month.title': '{room}, {month}',

  // ---- move

  'move.booking': '{room}, {day}, {hours}, Anfrage {id}.',
  'move.day': 'Tag',
  'move.head': 'Ändern: {title}',
  'move.length': 'Dauer in Minuten',
  'move.longTitle': 'Ein Titel hat höchstens {most} Zeichen.',
  'move.looking': 'Der Tagesplan wird geprüft.',
  'move.noLength': 'Die Dauer ist eine ganze Zahl von Minuten.',
  'move.noStart': 'Eine Buchung braucht einen Tag und einen Beginn.',
  'move.noTitle': 'Eine Buchung braucht einen Titel.',
  'move.plain': 'Nur einfache Buchstaben ohne Umlaute und Akzente sind möglich, etwa „{title}“.',
  'move.room': 'Raum',
  'move.send': 'Ändern',
  'move.slot': '{room}, {hours}',
  'move.start': 'Beginn',
  'move.title': 'Titel',
  'move.unread': 'Der Tagesplan ist nicht lesbar ({cause}).',

  // ---- movelist

  'movelist.allRight': 'In Ordnung',
  'movelist.booked': 'Gebucht, noch nicht endgültig: {title}, {slot}, Anfrage {id}.',
  'movelist.both': 'Beide Buchungen bestehen: {from} (Anfrage {old}) und {to} (Anfrage {new}).',
  'movelist.cancelNew': 'Die neue stornieren',
  'movelist.cancelOld': 'Die alte stornieren',
  'movelist.done': 'Die Änderung wurde ausgeführt: {to} ist gebucht, als Anfrage {id}, und die alte Buchung besteht nicht mehr.',
  'movelist.fellBack': '{to} war belegt. Gebucht ist {slot}, als Anfrage {id}; die alte Buchung besteht nicht mehr.',
  'movelist.leaveBoth': 'Beide behalten',
  'movelist.neither': 'Keine der beiden Buchungen besteht: {from} wurde storniert oder hat den Raum verloren, und {to} ist nicht gebucht.',
  'movelist.neitherWaiting': 'Keine der beiden Buchungen besteht: {from} wurde storniert oder hat den Raum verloren, und {to} hat keinen Raum, kann aber noch einen bekommen.',
  'movelist.notBooked': 'Nicht gebucht ({cause}).',
  'movelist.notDone': 'Die Änderung wurde nicht ausgeführt: {from} besteht unverändert.',
  'movelist.notDoneWaiting': 'Die Änderung wurde nicht ausgeführt: {from} besteht unverändert. Die Anfrage für {to} hat keinen Raum, kann aber noch einen bekommen.',
  'movelist.oldCancelled': 'Die alte Buchung ist storniert: {slot}.',
  'movelist.perhaps': 'Vielleicht nicht ausgeführt ({cause}). Der Stand wird erneut geprüft.',
  'movelist.refused': 'Nicht gebucht: {refusal}',
  'movelist.renamed': '{slot}, {title}',
  'movelist.slot': '{room}, {day}, {hours}',
  'movelist.taken': 'Nicht gebucht: {slot} ist belegt.',
  'movelist.takenBack': 'Die neue Anfrage {id} ist zurückgenommen; {slot} ist weiterhin gebucht.',
  'movelist.unknown': 'Was davon besteht, ist noch nicht bekannt ({cause}). Es wird erneut geprüft.',
  'movelist.withdraw': 'Diese Anfrage zurückziehen',

  // ---- moving

  'moving.asking': 'Die neue Buchung wird angefragt.',
  'moving.back': 'Ist die neue Zeit bis dahin belegt, wird die alte wieder angefragt.',
  'moving.backAgain': 'Nicht geändert: {why} Die Buchung hat wieder ihre alte Zeit, als Anfrage {id}.',
  'moving.brokenOff': 'Die Änderung wurde unterbrochen ({cause}). Was davon besteht, steht oben auf der Seite.',
  'moving.cancelling': 'Die alte Buchung wird storniert.',
  'moving.changed': 'Geändert: {title}, {slot}, Anfrage {id} anstelle von {old}; noch nicht endgültig.',
  'moving.fellBack': 'Nicht verschoben: {slot} war inzwischen belegt. Die Buchung hat wieder ihre alte Zeit, als Anfrage {id}.',
  'moving.gone': 'Nicht verschoben: Die Buchung war schon storniert oder hatte ihren Raum verloren. Es wurde nichts angefragt.',
  'moving.inGroup': 'In der Gruppe der Buchung steht noch die alte Anfrage ({cause}).',
  'moving.isTaken': '{hours} ist belegt: {title}.',
  'moving.later': 'Bis die Standorte sich abgeglichen haben, ist die neue Buchung nicht endgültig: Verliert sie dabei ihren Raum an eine frühere Anfrage, ist die alte trotzdem weg.',
  'moving.lost': 'Verloren: {why} Die alte Zeit, {slot}, wurde im selben Augenblick belegt. Fragen Sie eine andere an.',
  'moving.meanwhile': '{slot} war inzwischen belegt.',
  'moving.moved': 'Verschoben: {title}, {slot}, Anfrage {id} anstelle von {old}; noch nicht endgültig.',
  'moving.newFirst': 'Zuerst wird die neue Buchung angefragt; sobald sie gebucht ist, wird die alte storniert.',
  'moving.notSent': 'Nicht verschoben ({cause}). Es wurde nichts gesendet; die Buchung besteht unverändert.',
  'moving.oldFirst': 'Die neue Zeit überschneidet sich mit der alten, daher wird die alte Buchung zuerst storniert: Einen Augenblick lang kann jemand anders ihre Zeit belegen.',
  'moving.otherWindow': 'Ein anderes Fenster dieses Browsers verschiebt sie gerade.',
  'moving.refused': 'Nicht verschoben: {refusal} Die Buchung besteht unverändert.',
  'moving.slot': '{room}, {date}, {hours}',
  'moving.taken': 'Nicht verschoben: {slot} war inzwischen belegt. Die Buchung besteht unverändert.',

  // ---- needs

  'needs.seats': { one: '{count} Platz', other: '{count} Plätze' },

  // ---- news

  'news.cancelled': { one: '{count} Termin wurde von einem anderen Standort storniert', other: '{count} Termine wurden von einem anderen Standort storniert' },
  'news.cancelledToo': { one: '{count} wurde von einem anderen Standort storniert', other: '{count} wurden von einem anderen Standort storniert' },
  'news.found': { one: '{count} Termin hat doch noch einen Raum gefunden', other: '{count} Termine haben doch noch einen Raum gefunden' },
  'news.foundToo': { one: '{count} hat doch noch einen Raum gefunden', other: '{count} haben doch noch einen Raum gefunden' },
  'news.lost': { one: '{count} Termin hat seinen Raum verloren', other: '{count} Termine haben ihren Raum verloren' },
  'news.moved': { one: '{count} Termin wurde verschoben', other: '{count} Termine wurden verschoben' },
  'news.movedToo': { one: '{count} wurde verschoben', other: '{count} wurden verschoben' },
  'news.notMarked': 'Nicht als mitgeteilt vermerkt ({cause}). Sie können es noch einmal versuchen.',

  // ---- newslist

  'newslist.all': 'Alle wissen Bescheid',
  'newslist.bar': '{changes}.',
  'newslist.day': '{day}: {changes}',
  'newslist.found': 'Raum gefunden',
  'newslist.hadCancelled': 'War gebucht für {slot} und wurde von einem anderen Standort storniert (Anfrage {id}).',
  'newslist.hadLost': 'War gebucht für {slot} und ging an eine frühere Anfrage verloren.',
  'newslist.hasRoom': 'Hat inzwischen einen Raum: {slot}.',
  'newslist.hide': 'Liste ausblenden',
  'newslist.lost': 'Raum verloren',
  'newslist.mayChange': 'Das kann sich noch ändern, bis die Standorte sich abgeglichen haben.',
  'newslist.mayGet': 'Bis die Standorte sich abgeglichen haben, kann die Anfrage noch einen Raum bekommen.',
  'newslist.more': '{number} weitere anzeigen',
  'newslist.moved': 'Verschoben',
  'newslist.noRoom': 'Dafür gibt es keinen Raum.',
  'newslist.reallyAll': 'Wissen alle {number} vom {day} Bescheid? Die Einträge verschwinden an jedem Empfang dieses Standorts von der Liste.',
  'newslist.request': '{room}, Anfrage {id}.',
  'newslist.show': 'Liste anzeigen',
  'newslist.then': '{before} Danach: {after}',
  'newslist.told': 'Ich habe Bescheid gesagt',
  'newslist.toldAll': 'Ich habe allen {number} dieses Tages Bescheid gesagt',
  'newslist.wanted': 'War angefragt für {slot} und hat keinen Raum.',
  'newslist.wasCancelled': 'Wurde von einem anderen Standort storniert (Anfrage {id}).',
  'newslist.withdrawn': 'Die Anfrage ist zurückgezogen.',

  // ---- offers

  'offers.freeIn': 'Frei in {room}:',
  'offers.none': 'Am {day}, ist in keinem Raum etwas von dieser Dauer frei.',
  'offers.notWithdrawn': 'Die vorige Anfrage, {id}, ist nicht zurückgezogen und kann ebenfalls noch gebucht werden. Drücken Sie bei ihr, unter „Meine Anfragen“, auf „Zurückziehen“.',
  'offers.reallyWithdraw': 'Anfrage {id} ({title}, {room}) hat keinen Raum und kann noch einen bekommen. Soll sie zurückgezogen werden, da jetzt eine andere gebucht ist?',
  'offers.withdraw': 'Zurückziehen',

  // ---- office

  'office.notKnownHere': '(der Raum ist hier nicht bekannt)',
  'office.rooms': 'Räume',

  // ---- plan

  'plan.bad': 'Nicht möglich',
  'plan.clash': 'Belegt',
  'plan.countBad': { one: '{count} nicht möglich', other: '{count} nicht möglich' },
  'plan.countBooked': { one: '{count} gebucht, noch nicht endgültig', other: '{count} gebucht, noch nicht endgültig' },
  'plan.countClash': { one: '{count} belegt', other: '{count} belegt' },
  'plan.countFree': { one: '{count} frei', other: '{count} frei' },
  'plan.countNone': { one: '{count} ohne Raum', other: '{count} ohne Raum' },
  'plan.countPast': { one: '{count} vergangen', other: '{count} vergangen' },
  'plan.countPerhaps': { one: '{count} vielleicht gebucht', other: '{count} vielleicht gebucht' },
  'plan.countRefused': { one: '{count} abgelehnt', other: '{count} abgelehnt' },
  'plan.countThere': { one: '{count} schon vorhanden', other: '{count} schon vorhanden' },
  'plan.countUnread': { one: '{count} nicht geprüft', other: '{count} nicht geprüft' },
  'plan.free': 'Frei',
  'plan.isTaken': '{hours}: {title}',
  'plan.longTitle': 'der Titel hat {length} Zeichen und darf höchstens {most} haben',
  'plan.noDay': '„{day}“ ist kein Tag von 1990 bis 2099',
  'plan.noPlainLetter': 'der Titel hat keinen lateinischen Buchstaben',
  'plan.noTitle': 'hat keinen Titel',
  'plan.ofList': '{title} (in dieser Liste)',
  'plan.past': 'Vergangen',
  'plan.refused': 'Abgelehnt',
  'plan.request': 'Anfrage {id}',
  'plan.there': 'Schon vorhanden',
  'plan.unknownRoom': 'dieser Standort kennt den Raum {room} nicht',
  'plan.unread': 'Nicht geprüft',

  // ---- planlist

  'planlist.askFor': '{date}, {slot} anfragen',
  'planlist.item': '{day}, {hours}, {room}, {title}',
  'planlist.line': 'Zeile {line}: {what}',
  'planlist.more': 'Mehr von {of} anzeigen',
  'planlist.nothing': 'An diesem Tag ist nichts von dieser Dauer frei.',
  'planlist.reason': '{words}.',
  'planlist.reasons': '{words}; {note}.',
  'planlist.slot': '{room}, {hours}',
  'planlist.take': '{date}, {slot} nehmen',
  'planlist.whatIsFree': 'Was ist frei?',
  'planlist.whatIsFreeAt': 'Was ist frei? {day}, {hours}',

  // ---- print

  'print.asOf': '{office}, Stand: {day} {time}',
  'print.code': 'Die Seite dieses Tages',
  'print.none': 'Keine Buchungen.',
  'print.notRead': 'Es wurde kein Tagesplan geladen.',

  // ---- readcsv

  'readcsv.cells': 'hat {cells} Zellen, die erste Zeile aber nur {columns}',
  'readcsv.head': 'Die erste Zeile muss die Spalten nennen: Raum, Datum, Beginn, Ende oder Dauer, Titel und, falls vorhanden, id.',
  'readcsv.noDay': '„{text}“ ist kein Tag wie 2026-06-30 oder 30.6.2026',
  'readcsv.open': 'die Anführungszeichen sind nicht geschlossen, und alles Weitere steht in ihnen',
  'readcsv.otherDay': 'endet an einem anderen Tag',

  // ---- readical

  'readical.cancelled': 'ist abgesagt',
  'readical.cutOff': 'ist abgeschnitten',
  'readical.endless': 'wiederholt sich ohne Ende: In der Liste stehen die Termine eines Jahres',
  'readical.midnight': 'geht über Mitternacht hinaus, und eine Buchung endet spätestens dann',
  'readical.noDuration': '„{value}“ ist keine Dauer',
  'readical.noEnd': 'hat weder Ende noch Dauer',
  'readical.noMoment': '„{value}“ ist kein Zeitpunkt',
  'readical.noStart': 'hat keinen Beginn',
  'readical.none': 'Die Datei enthält keinen Termin.',
  'readical.notMeeting': '{kind} ist kein Termin',
  'readical.rules': 'wiederholt sich nach mehr als einer Regel, was hier nicht lesbar ist',
  'readical.seconds': 'beginnt oder endet nicht zu einer vollen Minute',
  'readical.wholeDays': 'ist ganztägig, und eine Buchung hat Uhrzeiten',
  'readical.zone': 'die Zeitzone „{name}“ ist nicht bekannt',

  // ---- recurs

  'recurs.freq': 'die Wiederholungsregel hat ein unbekanntes FREQ: {freq}',
  'recurs.often': 'wiederholt sich mehr als {most}-mal',
  'recurs.strange': 'die Wiederholungsregel enthält {part}, was hier nicht lesbar ist',
  'recurs.unreadable': 'die Wiederholungsregel ist hier nicht lesbar',

  // ---- run

  'run.item': '{title}, {room}, {date}, {start}',
  'run.noMails': 'die E-Mail-Adresse wurde dafür nicht angenommen ({cause}), es gehen keine E-Mails dazu hinaus',
  'run.noReply': 'Es ist unklar, ob die Anfrage für {item} angekommen ist ({cause}); im Tagesplan steht sie jetzt nicht. Sehen Sie dort nach, bevor Sie weitermachen.',
  'run.notAsked': 'wurde nicht angefragt',
  'run.notSent': 'Für {item} wurde nichts gesendet ({cause}).',

  // ---- search

  'search.days': { one: '{count} Tag', other: '{count} Tagen' },
  'search.found': { 0: 'Nichts gefunden.', one: '{count} Treffer.', other: '{count} Treffer.' },
  'search.foundMore': { one: '{count} Treffer; die ersten {shown} werden gezeigt.', other: '{count} Treffer; die ersten {shown} werden gezeigt.' },
  'search.hint': { 0: 'Durchsucht, was dieser Browser geladen hat: noch keinen Tagesplan. Ein Monat oder die kommenden Buchungen eines Raums, einmal angezeigt, kommen dazu.', one: 'Durchsucht, was dieser Browser geladen hat: {count} Tagesplan von {days}, {from} bis {to}. Ein Monat oder die kommenden Buchungen eines Raums, einmal angezeigt, kommen dazu.', other: 'Durchsucht, was dieser Browser geladen hat: {count} Tagespläne von {days}, {from} bis {to}. Ein Monat oder die kommenden Buchungen eines Raums, einmal angezeigt, kommen dazu.' },
  'search.showOf': 'Tag anzeigen: {title}, {where}',

  // ---- sending

  'sending.refused': 'Abgelehnt ({cause}).',

  // ---- series

  'series.backwards': 'Der letzte Tag liegt vor dem ersten.',
  'series.many': 'Das sind mehr als {most} Tage.',
  'series.noDay': 'Die Liste enthält keinen Tag.',
  'series.noSpan': 'Eine Serie braucht einen ersten und einen letzten Tag, von 1990 bis 2099.',
  'series.noWeekday': 'An welchen Wochentagen?',
  'series.none': 'Keiner dieser Tage gehört zur Serie.',

  // ---- states

  'states.areTaken': 'Alle gewünschten Zeiten sind belegt. Bis die Standorte sich abgeglichen haben, kann die Anfrage noch einen Raum bekommen; wird er nicht mehr gebraucht, ziehen Sie sie zurück.',
  'states.booked': 'Gebucht',
  'states.cancelled': 'Storniert',
  'states.cancelledBy': 'Storniert durch Anfrage {id}.',
  'states.cancelledByOpen': 'Storniert durch Anfrage {id}; noch nicht endgültig.',
  'states.knownNoMore': 'Dieser Standort kennt die Anfrage nicht mehr. Bitte melden Sie es dem Betreiber.',
  'states.mayMove': 'Bis die Standorte sich abgeglichen haben, kann sich die Buchung noch verschieben.',
  'states.noRoom': 'Kein Raum',
  'states.notFinal': 'Gebucht, noch nicht endgültig',
  'states.perhaps': 'Vielleicht gebucht',
  'states.unknown': 'Unbekannt',
  'states.wereTaken': 'Alle gewünschten Zeiten waren belegt.',
  'states.withdrawn': 'Zurückgezogen',
  'states.withdrawnBy': 'Zurückgezogen durch Anfrage {id}: Dafür gab es keinen Raum, und es gibt auch keinen mehr.',

  // ---- texts

  'texts.day': '{weekday}, {date}',

  // ---- wish

  'wish.alternativesOf': 'Ihre Alternativen sind für {room}.',
  'wish.changeRoom': 'Raum wechseln',
  'wish.clash': '{start} bis {stop} ist belegt: {title}.',
  'wish.goOn': 'Weiter: {room}, {hours}',
  'wish.held': { 0: 'Ihr Wunsch ist {room}, {slot}.', one: 'Ihr Wunsch ist {room}, {slot}, mit {count} Alternative.', other: 'Ihr Wunsch ist {room}, {slot}, mit {count} Alternativen.' },
  'wish.letters': '{number} von {most} Zeichen',
  'wish.oneRoom': 'Eine Anfrage gilt für einen Raum. Stattdessen {room}, {slot} anfragen?',
  'wish.reallyAgain': 'Was eingetragen ist, geht verloren. „{title}“ erneut anfragen?',
  'wish.takeBack': 'Entfernen',
  'wish.takeBackSlot': '{slot} entfernen',
  'wish.when': '{day}, {hours}',

  // ---- written

  'written.midnight': 'ein Termin endet spätestens um Mitternacht',
  'written.noEnd': 'hat weder Ende noch Dauer',
  'written.noLength': '„{text}“ ist keine Dauer in Minuten',
  'written.noTime': '„{text}“ ist keine Uhrzeit',
  'written.twoLengths': 'Dauer und Ende passen nicht zusammen',
});
