// The words of the page in French. What the keys and the templates mean stands in words.js. A section for each module; one key a line.
export default Object.freeze({
  // ---- all

  'all.askAgain': 'Redemander',
  'all.askFor': 'Demander {what}',
  'all.backwards': 'la fin n’est pas après le début',
  'all.change': 'Modifier',
  'all.close': 'Fermer',
  'all.dayTime': '{day}, {time}',
  'all.labelled': '{words} – {title}',
  'all.leaveIt': 'Laisser tel quel',
  'all.midnight': 'Une réunion se termine au plus tard à minuit.',
  'all.moved': 'Déplacée du {from} au {to}.',
  'all.no': 'Non',
  'all.notRead': 'Pas encore chargé.',
  'all.outcome': '{state} : {where} (demande {id}).',
  'all.requests': { one: '{count} demande', other: '{count} demandes' },
  'all.showDay': 'Afficher la journée',
  'all.slot': '{date} à {start}',
  'all.stop': 'Arrêter',
  'all.takePlain': 'Prendre « {title} »',
  'all.titleRule': 'Un titre compte de 1 à {most} lettres simples, chiffres ou signes.',
  'all.unknownRoom': 'Ce site ne connaît pas la salle.',
  'all.where': '{room}, {day}, {hours}',
  'all.withdraw': 'Retirer',

  // ---- fault

  'fault.failing': 'défaillance de son stockage ou de sa mémoire : {cause}',
  'fault.mayNotBook': 'cet utilisateur n’a pas le droit de réserver, ou le mot de passe a été refusé',
  'fault.noReply': 'pas de réponse',
  'fault.noRooms': 'rooms.json n’est pas du JSON',
  'fault.notTaking': 'le site ne prend pas de demandes en ce moment',
  'fault.password': 'le mot de passe a été refusé',
  'fault.status': 'statut {status}',
  'fault.unreadable': 'la demande est illisible',

  // ---- acts

  'acts.book': 'Réserver {length} min',
  'acts.booked': 'Réservé jusqu’à {time}.',
  'acts.checkIn': 'Confirmer la présence',
  'acts.checkInBy': 'Confirmer la présence avant {time}',
  'acts.checkedIn': 'Présence confirmée : {title}.',
  'acts.end': 'Terminer maintenant',
  'acts.ended': 'Réunion terminée : {title}.',
  'acts.late': 'Non réservé : quelqu’un a été un instant plus rapide.',
  'acts.notBooked': 'Non réservé : {cause}.',
  'acts.notDone': 'Non effectué : {cause}.',
  'acts.notEnded': 'Réunion non terminée : {cause}.',
  'acts.perhapsDone': 'Peut-être effectué ({cause}) : regardez ce qui s’affiche ensuite.',
  'acts.reallyEnd': 'Vraiment terminer ?',
  'acts.released': 'Libérée à {time} : personne n’a confirmé sa présence pour « {title} ».',

  // ---- anyroom

  'anyroom.allGone': 'Non réservé : tout ce qui était libre a été pris entre-temps.',
  'anyroom.asking': { 0: 'Demande en cours : {where}.', one: 'Demande en cours : {where}, car une autre salle vient d’être prise.', other: 'Demande en cours : {where}, car {count} autres viennent d’être prises.' },
  'anyroom.noneFree': 'Non réservé : aucune salle n’est libre aussi longtemps.',
  'anyroom.notBooked': 'Non réservé : {cause}.',
  'anyroom.notSent': 'Non réservé : {cause}. Rien n’a été envoyé ; vous pouvez réessayer.',
  'anyroom.perhaps': 'Peut-être réservé ({cause}) : regardez le planning avant de redemander.',
  'anyroom.perhapsBooked': 'Peut-être réservé : {where} ({cause}). Regardez le planning avant de redemander.',
  'anyroom.stillWaits': 'La demande {id} n’a pas trouvé de salle et peut encore en obtenir une : retirez-la, sous « Mes demandes », avant de redemander.',

  // ---- box

  'box.cancel': 'Annuler cette réservation',
  'box.request': 'Demande {id}.',
  'box.seen': 'Affiché ainsi depuis {time}.',

  // ---- cancel

  'cancel.cancelNotSent': 'Réservation non annulée : {cause}. Rien n’a été envoyé ; vous pouvez appuyer de nouveau sur « Annuler ».',
  'cancel.cancelled': 'Réservation annulée : {title}, par la demande {id} ; ce n’est pas encore définitif.',
  'cancel.cancelling': 'Annulation en cours',
  'cancel.hadRoom': 'Une salle avait été trouvée entre-temps, la réservation est annulée : {title}, par la demande {id} ; ce n’est pas encore définitif.',
  'cancel.notCancelled': 'Réservation non annulée : {cause}.',
  'cancel.notWithdrawn': 'Demande non retirée : {cause}.',
  'cancel.nothing': 'Il n’y avait pas de réservation à annuler : {title}. Si la demande trouve une salle plus tard, la réservation sera alors annulée.',
  'cancel.numbersUsed': 'les numéros de ce serveur sont épuisés ; prévenez l’administrateur',
  'cancel.perhapsCancelled': 'Réservation peut-être annulée ({cause}) : son état ici le montre.',
  'cancel.perhapsWithdrawn': 'Demande peut-être retirée ({cause}) : son état ici le montre.',
  'cancel.reallyCancel': 'Vraiment annuler ?',
  'cancel.reallyWithdraw': 'Vraiment retirer ?',
  'cancel.timeReached': 'le temps logique maximal est atteint ; prévenez l’administrateur',
  'cancel.unknownRequest': 'ce site ne connaît pas la demande',
  'cancel.unknownRoom': 'ce site ne connaît pas la salle',
  'cancel.withdrawNotSent': 'Demande non retirée : {cause}. Rien n’a été envoyé ; vous pouvez appuyer de nouveau sur « Retirer ».',
  'cancel.withdrawing': 'Retrait en cours',
  'cancel.withdrawn': 'Demande retirée : {title}, par la demande {id}. La réunion n’obtiendra plus de salle.',

  // ---- coming

  'coming.none': 'Aucune réservation ces jours-là.',
  'coming.title': '{room}, du {from} au {to}',
  'coming.unread': { one: '{count} jour n’est pas encore chargé.', other: '{count} jours ne sont pas encore chargés.' },

  // ---- desk

  'desk.find': 'Salles libres, {day}',
  'desk.fresh': 'Dernière mise à jour : {time} ; actualisation toutes les 30 secondes.',
  'desk.lost': 'Pas de connexion avec le site depuis {time} ({cause}).',
  'desk.noDay': 'Le jour {day} n’existe pas ; c’est aujourd’hui qui est affiché.',
  'desk.noRoom': 'La salle {room} n’existe pas.',
  'desk.noSheet': 'Aucun planning à afficher.',
  'desk.noView': 'La vue {view} n’existe pas.',
  'desk.old': 'L’affichage n’est plus à jour (dernière mise à jour : {time}).',
  'desk.search': 'Recherche',
  'desk.stale': 'Affichage ancien (dernière mise à jour : {time}) ; nouvelles tentatives en cours.',
  'desk.times': 'Les heures sont les heures locales des salles.',
  'desk.timesOfZone': 'Les heures sont les heures locales des salles ({zone}).',
  'desk.zoneUnknown': 'Ce navigateur ne connaît pas le fuseau {zone} ; c’est sa propre horloge qui dit quel jour nous sommes.',

  // ---- door

  'door.code': 'Un code qui ouvre la page de cette salle : {address}',
  'door.door': 'Porte',
  'door.free': 'Libre',
  'door.next': 'Ensuite : {hours} {title}',
  'door.nextDay': 'Ensuite : {weekday}, {hours} {title}',
  'door.noNews': 'Pas de connexion, et pas encore de données',
  'door.nothingElse': 'Plus rien aujourd’hui',
  'door.nothingKnown': 'Rien n’est encore connu pour aujourd’hui.',
  'door.now': 'Cette salle maintenant',
  'door.oldNews': 'Pas de connexion. Dernière mise à jour : {time}',
  'door.restOfDay': 'pour le reste de la journée',
  'door.taken': 'Occupée',
  'door.until': 'jusqu’à {time}',
  'door.whichRoom': 'Quelle salle ?',

  // ---- elsewhere

  'elsewhere.add': 'La personne qui gère ce site peut lui ajouter une salle avec rooms-office add-room.',
  'elsewhere.hide': 'Masquer',
  'elsewhere.known': 'Pas sur cette page : {rooms}.',
  'elsewhere.room': '{label} (site {office})',
  'elsewhere.unknown': { one: 'Un autre site a : {rooms}. Cette salle n’est pas encore connue ici, et ne peut pas encore y être réservée.', other: 'Un autre site a : {rooms}. Ces salles ne sont pas encore connues ici, et ne peuvent pas encore y être réservées.' },

  // ---- errorlist

  'errorlist.cancel': '{id}, une annulation qui n’a pas trouvé de réservation {target}',
  'errorlist.cancelOpen': '{id}, une annulation qui n’a pas trouvé de réservation {target} (pas encore définitif)',
  'errorlist.none': '(aucune)',
  'errorlist.request': '{id} : {date}, {hours}, {title}',
  'errorlist.requestOpen': '{id} : {date}, {hours}, {title} (pas encore définitif)',
  'errorlist.withdrawn': '{id} : {date}, {hours}, {title} (pas encore définitif), retirée par la demande {by}',

  // ---- figures

  'figures.all': 'Total',
  'figures.allRooms': 'Toutes les salles',
  'figures.booked': 'Réservé',
  'figures.bookings': 'Réservations',
  'figures.byMonth': 'Par mois',
  'figures.byRoom': 'Par salle',
  'figures.byWeekday': 'Par jour de la semaine',
  'figures.day': 'Jour',
  'figures.desk': 'Retour à l’accueil',
  'figures.drawing': 'Le tout sous forme de graphique',
  'figures.figures': 'Statistiques',
  'figures.from': 'De',
  'figures.hint': 'Les heures réservées sont celles comprises dans les heures d’ouverture ; les autres figurent à côté. Ce qui n’a pas trouvé de salle et n’a pas été retiré compte pour le jour souhaité ; ce qu’une synchronisation a déplacé ou privé de sa salle n’est compté que pour les demandes de ce site, ces dernières semaines.',
  'figures.hours': '{hours} h',
  'figures.lost': 'Perdues à la synchronisation',
  'figures.month': 'Mois',
  'figures.moved': 'Déplacées à la synchronisation',
  'figures.noRoom': 'Sans salle',
  'figures.none': 'Il n’y a pas encore de statistiques : le service du site les écrit quelques minutes après son démarrage.',
  'figures.noneOrLost': 'Il n’y a pas encore de statistiques, ou pas de connexion : le service du site les écrit quelques minutes après son démarrage.',
  'figures.nothing': 'Il n’y a rien pour ces mois.',
  'figures.open': 'Ouvert',
  'figures.outside': 'Hors des heures d’ouverture',
  'figures.pages': 'Pages',
  'figures.part': 'Occupation',
  'figures.percent': '{percent} %',
  'figures.room': 'Salle',
  'figures.table': 'Le tout sous forme de tableau (CSV, en minutes)',
  'figures.to': 'À',
  'figures.what': 'Utilisation des salles',

  // ---- filepart

  'filepart.none': 'Aucune',
  'filepart.unreadable': 'Le fichier est illisible.',

  // ---- find

  'find.ask': 'Indiquez une durée en minutes et deux heures, s’il vous plaît.',
  'find.none': 'Aucune salle n’a tout cela.',
  'find.notFree': 'Pas libre aussi longtemps.',
  'find.take': '{room} est libre le {day}, {hours} : demander',

  // ---- form

  'form.allTaken': 'Pas de salle : {room} est occupée le {slot} et à chaque autre choix.',
  'form.alternative': 'C’est l’autre choix n° {number} : le {slot} était occupé.',
  'form.askAllTheSame': 'Demander quand même',
  'form.choices': 'Au plus 16 autres choix.',
  'form.day': 'Ce n’est pas un jour de 1990 à 2099.',
  'form.length': 'La durée est un nombre entier de minutes, de 1 à 1440, et pour chaque choix la réunion se termine à minuit au plus tard.',
  'form.mayGet': 'La demande peut encore en obtenir une jusqu’à la synchronisation des sites. Si vous prenez une offre à la place, la demande est retirée.',
  'form.notSent': 'Non réservé : {cause}. Rien n’a été envoyé ; vous pouvez appuyer de nouveau sur « Demander ».',
  'form.numbersUsed': 'Les numéros de ce serveur sont épuisés : le site a besoin d’un nouveau réplica. Prévenez l’administrateur.',
  'form.past': '{date}, {hours} : c’est déjà passé. Demander quand même ?',
  'form.perhaps': 'Peut-être réservé ({cause}) : regardez le planning avant de redemander. Rien n’est renvoyé automatiquement.',
  'form.plainOnly': 'Seules les lettres simples peuvent être conservées, sans accents ni autres écritures.',
  'form.reallyAsk': 'Demander quand même ?',
  'form.refused': 'Demande refusée : {cause}.',
  'form.room': 'Ce n’est pas le nom d’une salle.',
  'form.sending': 'Envoi en cours. Si le navigateur demande un mot de passe, rien n’est envoyé avant qu’il l’ait.',
  'form.start': 'Le début est une heure de 00:00 à 23:59.',
  'form.taken': 'Pas de salle : {room} est occupée le {slot}.',
  'form.timeReached': 'Le temps logique maximal est atteint : ce site ne prend plus de demandes. Prévenez l’administrateur.',
  'form.titleHas': 'Celui-ci en compte {number}.',
  'form.unknownRoom': 'Ce site ne connaît pas la salle : l’administrateur doit l’ajouter, ou synchroniser avec un site qui l’a.',
  'form.unreadable': 'la demande est illisible',

  // ---- grid

  'grid.alternative': 'Autre choix {number}',
  'grid.alternativeAt': 'Autre choix {number} : {hours}',
  'grid.booking': '{column}, {hours}, {title}, {state}',
  'grid.free': '{column}, {time}, libre',
  'grid.notFinal': '{hours}, non définitif',
  'grid.now': 'maintenant : {day}, {time}',
  'grid.wish': 'Souhait',
  'grid.wishAt': 'Souhait : {hours}',
  'grid.yourAlternative': '{column}, {time}, votre autre choix {number}',
  'grid.yourWish': '{column}, {time}, votre souhait',

  // ---- grouplist

  'grouplist.all': { one: 'Annuler', other: 'Annuler les {count}' },
  'grouplist.asking': 'Vérification',
  'grouplist.became': '{parts}.',
  'grouplist.cancelled': { one: '{count} annulée', other: '{count} annulées' },
  'grouplist.done': '{done} sur {of}',
  'grouplist.gone': { one: '{count} déjà annulée ou sans salle', other: '{count} déjà annulées ou sans salle' },
  'grouplist.hide': 'Masquer',
  'grouplist.hint': 'Ce qui a été demandé ensemble sur ce site.',
  'grouplist.item': '{day}, {hours}, {room}, {title}',
  'grouplist.moved': '{day}, {hours}, {room}, {title}, demande {id}, {moved}',
  'grouplist.none': 'Aucun pour l’instant.',
  'grouplist.notCancelled': 'Réservation non annulée : {title}, {date} ({cause}) ; les suivantes n’ont pas été touchées.',
  'grouplist.notKept': 'La liste du groupe sur le site est restée telle quelle : {cause}.',
  'grouplist.now': 'maintenant {date}, {start}',
  'grouplist.older': 'Ce site ne conserve pas de groupes : son proxy date d’une version antérieure.',
  'grouplist.perhapsNot': 'L’annulation de {title}, {date}, n’a peut-être pas été faite ; les suivantes n’ont pas été touchées.',
  'grouplist.request': '{day}, {hours}, {room}, {title}, demande {id}',
  'grouplist.show': 'Afficher',
  'grouplist.span': { one: '{count} demande, le {from}.', other: '{count} demandes, du {from} au {to}.' },
  'grouplist.spanGone': { one: '{count} demande, le {from} ; aucune ne subsiste à partir d’aujourd’hui.', other: '{count} demandes, du {from} au {to} ; aucune ne subsiste à partir d’aujourd’hui.' },
  'grouplist.stopped': { one: 'Arrêté : {count} subsiste.', other: 'Arrêté : {count} subsistent.' },
  'grouplist.sure': { one: 'Annuler {count} demande de « {title} » prévue à partir d’aujourd’hui ? C’est irréversible.', other: 'Annuler les {count} demandes de « {title} » prévues à partir d’aujourd’hui ? C’est irréversible.' },
  'grouplist.sureNo': 'Ne rien annuler',
  'grouplist.sureYes': 'Tout annuler',
  'grouplist.withdrawn': { one: '{count} sans salle retirée', other: '{count} sans salle retirées' },

  // ---- groups

  // ---- importing

  'importing.before': 'déjà demandé auparavant, demande {id}',
  'importing.big': 'Le fichier dépasse {size} Mo.',
  'importing.many': 'Le fichier contient plus de {most} réservations : partagez-le en plusieurs fichiers.',
  'importing.noRoom': 'n’indique aucune salle',
  'importing.none': 'Le fichier ne contient aucune réservation.',
  'importing.notHere': '« {place} » n’est pas une salle de ce site',
  'importing.same': 'identique à la ligne {line}',

  // ---- index

  'index.after': 'Suivant',
  'index.allRooms': 'de toutes les salles',
  'index.allRoomsCalendar': 'S’abonner au calendrier de toutes les salles',
  'index.alternatives': 'Autres choix',
  'index.anyRoom': 'Réserver la première salle libre',
  'index.ask': 'Demander une salle',
  'index.before': 'Précédent',
  'index.calendar': 'S’abonner au calendrier',
  'index.coming': 'À venir',
  'index.csvFile': 'Un fichier CSV ou un calendrier (.ics)',
  'index.day': 'Jour',
  'index.days': 'Jours',
  'index.doorDisplay': 'Affichage à la porte',
  'index.eachFourth': 'une semaine sur quatre',
  'index.eachMonth': 'chaque mois, p. ex. le troisième mardi',
  'index.eachSecond': 'une semaine sur deux',
  'index.eachThird': 'une semaine sur trois',
  'index.eachWeek': 'chaque semaine',
  'index.equipment': 'Équipement',
  'index.errors': 'Demandes restées sans salle',
  'index.errorsHint': 'Et les annulations qui n’ont trouvé aucune réservation, pour la salle choisie ci-dessus. Ce qui n’est pas définitif peut encore obtenir une salle, à moins d’être retiré.',
  'index.figures': 'Statistiques',
  'index.file': 'Depuis un fichier',
  'index.fileHint': 'La première ligne d’un fichier CSV nomme ses colonnes : salle, date, début, fin ou durée, titre, et id s’il y en a un. Le fichier reste dans ce navigateur : la page montre ce que deviendrait chaque ligne, et rien n’est demandé sans votre accord.',
  'index.fileRoom': 'Salle pour les lignes sans salle connue',
  'index.find': 'Trouver une salle libre',
  'index.from': 'De',
  'index.fromDay': 'Du',
  'index.groups': 'Groupes',
  'index.inEach': 'Fréquence',
  'index.legend': '{sure} : reste tel quel, sauf annulation. {open} : peut encore être déplacé jusqu’à la synchronisation des sites. Choisissez une réservation pour la voir ou l’annuler ; choisissez une heure libre pour la demander, puis d’autres de la même salle comme autres choix. Les flèches du clavier permettent de se déplacer.',
  'index.length': 'Durée en minutes',
  'index.list': 'Ou seulement ces jours, comme 2026-06-30 ou 30.6.2026',
  'index.look': 'Voir ce qui est libre',
  'index.mail': 'Adresse e-mail (facultative)',
  'index.mailHint': 'Reçoit un e-mail à chaque changement de la demande. Plus personne ne pourra lire l’adresse ici.',
  'index.many': 'Plusieurs à la fois',
  'index.mine': 'Mes demandes',
  'index.mineHint': 'Celles de ce navigateur. Une annulation libère la salle pour les demandes suivantes ; elle est irréversible.',
  'index.month': 'Mois',
  'index.moves': 'La modification d’une réservation a été interrompue',
  'index.news': 'Ce que sont devenues les demandes de ce site',
  'index.newsHint': 'Depuis la synchronisation des sites. Ce qui a été signalé aux intéressés disparaît de la liste à tous les postes d’accueil de ce site.',
  'index.none': 'aucun',
  'index.offers': 'Ce qui est libre à la place',
  'index.on': 'Ces jours de la semaine',
  'index.printDoor': 'Imprimer pour la porte',
  'index.progress': 'Combien sont faites',
  'index.request': 'Demander',
  'index.room': 'Salle',
  'index.search': 'Rechercher',
  'index.searchFor': 'Titre, ou une partie du titre',
  'index.seats': 'Places, au moins',
  'index.skip': 'Aller au formulaire de demande',
  'index.start': 'Début',
  'index.startOver': 'Recommencer',
  'index.title': 'Titre',
  'index.to': 'À',
  'index.today': 'Aujourd’hui',
  'index.untilDay': 'Au',
  'index.view': 'Vue',
  'index.week': 'Semaine',

  // ---- languagemenu

  'languagemenu.automatic': '{name} (auto)',
  'languagemenu.language': 'Langue',

  // ---- mail

  'mail.given': 'Les suites de la demande {id} sont envoyées à cette adresse par e-mail.',
  'mail.notTaken': 'L’adresse e-mail n’a pas été prise pour la demande {id} ({cause}) : aucun e-mail ne sera envoyé à son sujet.',
  'mail.ofEach': 'Reçoit un e-mail à chaque changement de chacune des demandes. Plus personne ne pourra lire l’adresse ici.',
  'mail.wrong': 'Ce n’est pas une adresse e-mail en lettres simples, comme anna@example.org. Laissez le champ vide pour ne pas recevoir d’e-mails.',

  // ---- many

  'many.again': 'Vérifier à nouveau',
  'many.ask': { one: 'Envoyer {count} demande', other: 'Envoyer {count} demandes' },
  'many.asking': 'Envoi des demandes : {done} sur {of}.',
  'many.away': 'Fermer la liste',
  'many.beside': '{words} ; {next}',
  'many.broken': { 0: 'Cette liste a été interrompue : toutes les demandes avaient été envoyées.', one: 'Cette liste a été interrompue : {count} demande n’a pas été envoyée.', other: 'Cette liste a été interrompue : {count} demandes n’ont pas été envoyées.' },
  'many.instead': 'À la place de la demande {id}',
  'many.insteadWithdrawn': 'À la place de la demande {id}, qui est retirée',
  'many.keep': 'Réenregistrer le groupe',
  'many.list': { one: '{count} créneau dans la liste : {counts}.', other: '{count} créneaux dans la liste : {counts}.' },
  'many.looking': 'Consultation des plannings : {done} sur {of}.',
  'many.noLength': 'La durée est un nombre entier de minutes, de 1 à 1440.',
  'many.noStart': 'Une série doit avoir une heure de début.',
  'many.noTitle': 'Une série doit avoir un titre.',
  'many.notKept': 'Le groupe n’est pas enregistré sur le site ({cause}), et ne peut pas encore être annulé d’un seul coup.',
  'many.notWithdrawn': 'La demande précédente, {id}, n’est pas retirée, et peut encore être réservée elle aussi.',
  'many.otherWindow': 'Une autre fenêtre de ce navigateur traite déjà une telle liste.',
  'many.sure': { one: '{count} demande de la liste n’a pas été envoyée. Fermer la liste quand même ?', other: '{count} demandes de la liste n’ont pas été envoyées. Fermer la liste quand même ?' },
  'many.sureNo': 'La garder',
  'many.sureYes': 'La fermer',
  'many.unsure': 'Vérifier si elle est arrivée',

  // ---- met

  'met.met': 'Synchronisé avec {name} : {moment}.',
  'met.metFault': 'Synchronisé avec {name} : {moment} ({fault}).',
  'met.never': 'Jamais synchronisé avec {name}.',
  'met.neverFault': 'Jamais synchronisé avec {name} ({fault}).',
  'met.silent': 'Le service du site n’a encore rien écrit.',
  'met.silentSince': 'Le service du site n’a rien écrit depuis {moment}.',
  'met.waiting': { 0: 'Aucune demande n’attend d’être définitive.', one: '{count} demande n’est pas encore définitive.', other: '{count} demandes ne sont pas encore définitives.' },

  // ---- mine

  'mine.asked': '{room}, demandée pour le {slot}.',
  'mine.askedAs': '{room}, demandée pour le {slot}, demande {id}.',
  'mine.cancel': 'Annuler',
  'mine.day': '{day} : {requests}',
  'mine.dayLost': '{day} : {requests}, {without}',
  'mine.found': 'Une salle a été trouvée entre-temps.',
  'mine.has': '{date}, {hours}.',
  'mine.lost': 'Le créneau du {slot} a été perdu au profit d’une demande antérieure.',
  'mine.noReply': 'Aucune réponse n’est venue : regardez le planning. La demande n’est pas renvoyée.',
  'mine.none': 'Aucune pour l’instant.',
  'mine.notKnownYet': 'Personne ne sait encore si c’est réservé. L’enlever quand même de la liste ?',
  'mine.onItsWay': 'En cours d’envoi',
  'mine.staysBooked': 'La réservation est maintenue : même enlevée de cette liste, elle reste réservée. Pour libérer la salle, annulez-la.',
  'mine.takeOff': 'Enlever de la liste',
  'mine.takeOffPast': { one: 'Enlever de la liste {count} demande passée', other: 'Enlever de la liste les {count} demandes passées' },
  'mine.withoutRoom': '{count} sans salle',

  // ---- month

  'month.bookings': { 0: 'aucune réservation', one: '{count} réservation', other: '{count} réservations' },
  'month.hint': 'Choisissez un jour pour le voir. Les flèches du clavier mènent d’un jour à l’autre.',
  'month.more': { one: 'et {count} autre', other: 'et {count} autres' },
  'month.notKnown': 'la salle n’est pas connue ici',
  'month.notRead': 'pas encore chargé',
  'month.title': '{room}, {month}',

  // ---- move

  'move.booking': '{room}, {day}, {hours}, demande {id}.',
  'move.day': 'Jour',
  'move.head': 'Modifier : {title}',
  'move.length': 'Durée en minutes',
  'move.longTitle': 'Un titre a {most} caractères au plus.',
  'move.looking': 'Consultation du planning.',
  'move.noLength': 'La durée est un nombre entier de minutes.',
  'move.noStart': 'Une réservation doit avoir un jour et une heure de début.',
  'move.noTitle': 'Une réservation doit avoir un titre.',
  'move.plain': 'Seules les lettres sans accent sont possibles, par exemple « {title} ».',
  'move.room': 'Salle',
  'move.send': 'Modifier',
  'move.slot': '{room}, {hours}',
  'move.start': 'Début',
  'move.title': 'Titre',
  'move.unread': 'Le planning de ce jour ne peut pas être lu : {cause}.',

  // ---- movelist

  'movelist.allRight': 'D’accord',
  'movelist.booked': 'Réservé, pas encore définitif : {title}, {slot}, demande {id}.',
  'movelist.both': 'Les deux réservations existent : {from} (demande {old}) et {to} (demande {new}).',
  'movelist.cancelNew': 'Annuler la nouvelle',
  'movelist.cancelOld': 'Annuler l’ancienne',
  'movelist.done': 'La modification a été faite : {to} est réservé, demande {id}, et l’ancienne réservation n’existe plus.',
  'movelist.fellBack': '{to} était occupé. Ce qui est réservé : {slot}, demande {id} ; l’ancienne réservation n’existe plus.',
  'movelist.leaveBoth': 'Garder les deux',
  'movelist.neither': 'Aucune des deux n’existe : la réservation {from} a été annulée ou a perdu sa salle, et {to} n’est pas réservé.',
  'movelist.neitherWaiting': 'Aucune des deux n’existe : la réservation {from} a été annulée ou a perdu sa salle, et {to} n’a pas de salle, mais peut encore en obtenir une.',
  'movelist.notBooked': 'Non réservé : {cause}.',
  'movelist.notDone': 'La modification n’a pas été faite : la réservation {from} reste telle quelle.',
  'movelist.notDoneWaiting': 'La modification n’a pas été faite : la réservation {from} reste telle quelle. La demande pour {to} n’a pas de salle, mais peut encore en obtenir une.',
  'movelist.oldCancelled': 'L’ancienne réservation est annulée : {slot}.',
  'movelist.perhaps': 'Peut-être non effectué : {cause}. La situation est vérifiée à nouveau.',
  'movelist.refused': 'Non réservé. {refusal}',
  'movelist.renamed': '{slot}, {title}',
  'movelist.slot': '{room}, {day}, {hours}',
  'movelist.taken': 'Non réservé : {slot} est occupé.',
  'movelist.takenBack': 'La nouvelle demande {id} est abandonnée ; {slot} est toujours réservé.',
  'movelist.unknown': 'On ne sait pas encore ce qu’il en est ({cause}). Une nouvelle vérification va suivre.',
  'movelist.withdraw': 'Retirer cette demande',

  // ---- moving

  'moving.asking': 'Demande de la nouvelle réservation en cours.',
  'moving.back': 'Si le nouvel horaire est pris d’ici là, l’ancien est redemandé.',
  'moving.backAgain': 'Réservation non modifiée. {why} La réservation a retrouvé son ancien horaire, demande {id}.',
  'moving.brokenOff': 'La modification a été interrompue ({cause}). Ce qu’il en est s’affiche en haut de la page.',
  'moving.cancelling': 'Annulation de l’ancienne réservation en cours.',
  'moving.changed': 'Réservation modifiée : {title}, {slot}, demande {id}, à la place de {old} ; pas encore définitive.',
  'moving.fellBack': 'Réservation non déplacée : {slot} a été pris entre-temps. La réservation a retrouvé son ancien horaire, demande {id}.',
  'moving.gone': 'Réservation non déplacée : elle était déjà annulée ou avait perdu sa salle. Rien n’a été demandé.',
  'moving.inGroup': 'Son groupe contient encore l’ancienne demande : {cause}.',
  'moving.isTaken': '{hours} est occupé : {title}.',
  'moving.later': 'Jusqu’à la synchronisation des sites, la nouvelle réservation n’est pas définitive : si elle perd alors sa salle au profit d’une demande antérieure, l’ancienne est perdue malgré tout.',
  'moving.lost': 'Réservation perdue. {why} L’ancien horaire, {slot}, a été pris au même instant. Demandez-en un autre.',
  'moving.meanwhile': '{slot} a été pris entre-temps.',
  'moving.moved': 'Réservation déplacée : {title}, {slot}, demande {id}, à la place de {old} ; pas encore définitive.',
  'moving.newFirst': 'La nouvelle réservation est demandée d’abord ; l’ancienne n’est annulée qu’une fois la nouvelle obtenue.',
  'moving.notSent': 'Réservation non déplacée : {cause}. Rien n’a été envoyé ; elle reste telle quelle.',
  'moving.oldFirst': 'Le nouvel horaire recoupe l’ancien, l’ancienne réservation est donc annulée d’abord : pendant un instant, quelqu’un d’autre peut prendre son horaire.',
  'moving.otherWindow': 'Une autre fenêtre de ce navigateur est en train de la déplacer.',
  'moving.refused': 'Réservation non déplacée. {refusal} La réservation reste telle quelle.',
  'moving.slot': '{room}, {date}, {hours}',
  'moving.taken': 'Réservation non déplacée : {slot} a été pris entre-temps. La réservation reste telle quelle.',

  // ---- needs

  'needs.seats': { one: '{count} place', other: '{count} places' },

  // ---- news

  'news.cancelled': { one: '{count} réunion a été annulée par un autre site', other: '{count} réunions ont été annulées par un autre site' },
  'news.cancelledToo': { one: '{count} a été annulée par un autre site', other: '{count} ont été annulées par un autre site' },
  'news.found': { one: '{count} réunion a finalement trouvé une salle', other: '{count} réunions ont finalement trouvé une salle' },
  'news.foundToo': { one: '{count} a finalement trouvé une salle', other: '{count} ont finalement trouvé une salle' },
  'news.lost': { one: '{count} réunion a perdu sa salle', other: '{count} réunions ont perdu leur salle' },
  'news.moved': { one: '{count} réunion a été déplacée', other: '{count} réunions ont été déplacées' },
  'news.movedToo': { one: '{count} a été déplacée', other: '{count} ont été déplacées' },
  'news.notMarked': 'Les intéressés ne sont pas notés comme prévenus : {cause}. Vous pouvez réessayer.',

  // ---- newslist

  'newslist.all': 'Tous sont prévenus',
  'newslist.bar': '{changes}.',
  'newslist.day': '{day} : {changes}',
  'newslist.found': 'Salle trouvée',
  'newslist.hadCancelled': 'Réservée pour le {slot}, puis annulée par un autre site (demande {id}).',
  'newslist.hadLost': 'Le créneau du {slot} a été perdu au profit d’une demande antérieure.',
  'newslist.hasRoom': 'Une salle a été trouvée entre-temps : {slot}.',
  'newslist.hide': 'Masquer la liste',
  'newslist.lost': 'Salle perdue',
  'newslist.mayChange': 'Cela peut encore changer jusqu’à la synchronisation des sites.',
  'newslist.mayGet': 'La demande peut encore obtenir une salle jusqu’à la synchronisation des sites.',
  'newslist.more': 'En afficher {number} de plus',
  'newslist.moved': 'Déplacée',
  'newslist.noRoom': 'Il n’y a pas de salle.',
  'newslist.reallyAll': 'Les {number} du {day} sont-ils tous prévenus ? Leurs entrées disparaissent de la liste à tous les postes d’accueil de ce site.',
  'newslist.request': '{room}, demande {id}.',
  'newslist.show': 'Afficher la liste',
  'newslist.then': '{before} Ensuite : {after}',
  'newslist.told': 'Je les ai prévenus',
  'newslist.toldAll': 'J’ai prévenu les {number} de ce jour',
  'newslist.wanted': 'Demandée pour le {slot}, et sans salle.',
  'newslist.wasCancelled': 'Annulée par un autre site (demande {id}).',
  'newslist.withdrawn': 'La demande est retirée.',

  // ---- offers

  'offers.freeIn': 'Libre dans {room} :',
  'offers.none': 'Le {day}, aucune salle n’est libre pour cette durée.',
  'offers.notWithdrawn': 'La demande précédente, {id}, n’est pas retirée et peut encore être réservée elle aussi. Appuyez sur « Retirer » à côté d’elle, sous « Mes demandes ».',
  'offers.reallyWithdraw': 'La demande {id} ({title}, {room}) n’a pas de salle et peut encore en obtenir une. La retirer, maintenant qu’une autre est réservée ?',
  'offers.withdraw': 'La retirer',

  // ---- office

  'office.notKnownHere': '(la salle n’est pas connue ici)',
  'office.rooms': 'Salles',

  // ---- plan

  'plan.bad': 'Impossible',
  'plan.clash': 'Occupé',
  'plan.countBad': { one: '{count} impossible', other: '{count} impossibles' },
  'plan.countBooked': { one: '{count} réservé, pas encore définitif', other: '{count} réservés, pas encore définitifs' },
  'plan.countClash': { one: '{count} occupé', other: '{count} occupés' },
  'plan.countFree': { one: '{count} libre', other: '{count} libres' },
  'plan.countNone': { one: '{count} sans salle', other: '{count} sans salle' },
  'plan.countPast': { one: '{count} passé', other: '{count} passés' },
  'plan.countPerhaps': { one: '{count} peut-être réservé', other: '{count} peut-être réservés' },
  'plan.countRefused': { one: '{count} refusé', other: '{count} refusés' },
  'plan.countThere': { one: '{count} déjà présent', other: '{count} déjà présents' },
  'plan.countUnread': { one: '{count} non vérifié', other: '{count} non vérifiés' },
  'plan.free': 'Libre',
  'plan.isTaken': '{hours} : {title}',
  'plan.longTitle': 'son titre a {length} caractères, et peut en avoir {most} au plus',
  'plan.noDay': '« {day} » n’est pas un jour de 1990 à 2099',
  'plan.noPlainLetter': 'son titre n’a aucune lettre latine',
  'plan.noTitle': 'n’a pas de titre',
  'plan.ofList': '{title} (dans cette liste)',
  'plan.past': 'Passé',
  'plan.refused': 'Refusé',
  'plan.request': 'demande {id}',
  'plan.there': 'Déjà présent',
  'plan.unknownRoom': 'ce site ne connaît pas la salle {room}',
  'plan.unread': 'Non vérifié',

  // ---- planlist

  'planlist.askFor': 'Demander {date}, {slot}',
  'planlist.item': '{day}, {hours}, {room}, {title}',
  'planlist.line': 'Ligne {line} : {what}',
  'planlist.more': 'En afficher plus ({of} au total)',
  'planlist.nothing': 'Rien de cette durée n’est libre ce jour-là.',
  'planlist.reason': '{words}.',
  'planlist.reasons': '{words} ; {note}.',
  'planlist.slot': '{room}, {hours}',
  'planlist.take': 'Prendre {date}, {slot}',
  'planlist.whatIsFree': 'Qu’est-ce qui est libre ?',
  'planlist.whatIsFreeAt': 'Qu’est-ce qui est libre ? {day}, {hours}',

  // ---- print

  'print.asOf': '{office}, situation du {day} à {time}',
  'print.code': 'La page de ce jour',
  'print.none': 'Aucune réservation.',
  'print.notRead': 'Aucun planning n’a été chargé.',

  // ---- readcsv

  'readcsv.cells': 'compte {cells} cellules, contre {columns} dans la première ligne',
  'readcsv.head': 'La première ligne doit nommer les colonnes : salle, date, début, fin ou durée, titre, et id s’il y en a un.',
  'readcsv.noDay': '« {text} » n’est pas un jour comme 2026-06-30 ou 30.6.2026',
  'readcsv.open': 'ses guillemets ne sont pas fermés, et tout ce qui suit se trouve dedans',
  'readcsv.otherDay': 'se termine un autre jour',

  // ---- readical

  'readical.cancelled': 'est annulé',
  'readical.cutOff': 'est tronqué',
  'readical.endless': 'se répète sans fin : la liste en contient une année',
  'readical.midnight': 'dépasse minuit, alors qu’une réservation se termine au plus tard à minuit',
  'readical.noDuration': '« {value} » n’est pas une durée',
  'readical.noEnd': 'n’a ni fin ni durée',
  'readical.noMoment': '« {value} » n’est pas un moment',
  'readical.noStart': 'n’a pas de début',
  'readical.none': 'Le fichier ne contient aucun événement.',
  'readical.notMeeting': '{kind} n’est pas une réunion',
  'readical.rules': 'se répète selon plusieurs règles, ce qui ne peut pas être lu ici',
  'readical.seconds': 'ne commence pas ou ne finit pas à une minute entière',
  'readical.wholeDays': 'dure toute la journée, alors qu’une réservation a un horaire',
  'readical.zone': 'son fuseau horaire « {name} » n’est pas connu',

  // ---- recurs

  'recurs.freq': 'sa règle de répétition a un FREQ inconnu : {freq}',
  'recurs.often': 'se répète plus de {most} fois',
  'recurs.strange': 'sa règle de répétition contient {part}, qui ne peut pas être lu ici',
  'recurs.unreadable': 'sa règle de répétition ne peut pas être lue ici',

  // ---- run

  'run.item': '{title}, {room}, {date}, {start}',
  'run.noMails': 'l’adresse e-mail n’a pas été prise ({cause}), il n’y aura pas d’e-mails pour cette demande',
  'run.noReply': 'On ne sait pas si la demande pour {item} est arrivée ({cause}) ; elle ne figure pas au planning pour l’instant. Consultez-le avant de continuer.',
  'run.notAsked': 'n’a pas été demandé',
  'run.notSent': 'Rien n’a été envoyé pour {item} : {cause}.',

  // ---- search

  'search.days': { one: '{count} jour', other: '{count} jours' },
  'search.found': { 0: 'Aucun résultat.', one: '{count} résultat.', other: '{count} résultats.' },
  'search.foundMore': { one: '{count} résultat ; les {shown} premiers sont affichés.', other: '{count} résultats ; les {shown} premiers sont affichés.' },
  'search.hint': { 0: 'Cherche dans ce que ce navigateur a chargé : encore aucun planning. Un mois ou les réservations à venir d’une salle, une fois affichés, s’y ajoutent.', one: 'Cherche dans ce que ce navigateur a chargé : {count} planning sur {days}, du {from} au {to}. Un mois ou les réservations à venir d’une salle, une fois affichés, s’y ajoutent.', other: 'Cherche dans ce que ce navigateur a chargé : {count} plannings sur {days}, du {from} au {to}. Un mois ou les réservations à venir d’une salle, une fois affichés, s’y ajoutent.' },
  'search.showOf': 'Afficher la journée : {title}, {where}',

  // ---- sending

  'sending.refused': 'Demande refusée ({cause}).',

  // ---- series

  'series.backwards': 'Le dernier jour est avant le premier.',
  'series.many': 'Cela fait plus de {most} jours.',
  'series.noDay': 'La liste ne contient aucun jour.',
  'series.noSpan': 'Une série doit avoir un premier et un dernier jour, de 1990 à 2099.',
  'series.noWeekday': 'Quels jours de la semaine ?',
  'series.none': 'Aucun de ces jours ne fait partie de la série.',

  // ---- states

  'states.areTaken': 'Tous les horaires demandés sont occupés. La demande peut encore obtenir une salle jusqu’à la synchronisation des sites ; si vous pouvez vous en passer, retirez-la.',
  'states.booked': 'Réservé',
  'states.cancelled': 'Annulée',
  'states.cancelledBy': 'Annulée par la demande {id}.',
  'states.cancelledByOpen': 'Annulée par la demande {id} ; ce n’est pas encore définitif.',
  'states.knownNoMore': 'Ce site ne connaît plus la demande. Prévenez l’administrateur.',
  'states.mayMove': 'La réservation peut encore être déplacée jusqu’à la synchronisation des sites.',
  'states.noRoom': 'Pas de salle',
  'states.notFinal': 'Réservé, pas encore définitif',
  'states.perhaps': 'Peut-être réservé',
  'states.unknown': 'Inconnue',
  'states.wereTaken': 'Tous les horaires demandés étaient occupés.',
  'states.withdrawn': 'Retirée',
  'states.withdrawnBy': 'Elle n’avait pas de salle et n’en obtiendra plus : la demande {id} l’a retirée.',

  // ---- texts

  'texts.day': '{weekday} {date}',

  // ---- wish

  'wish.alternativesOf': 'Vos autres choix sont pour {room}.',
  'wish.changeRoom': 'Changer de salle',
  'wish.clash': 'De {start} à {stop}, occupé : {title}.',
  'wish.goOn': 'Continuer : {room}, {hours}',
  'wish.held': { 0: 'Votre souhait est {room}, {slot}.', one: 'Votre souhait est {room}, {slot}, avec {count} autre choix.', other: 'Votre souhait est {room}, {slot}, avec {count} autres choix.' },
  'wish.letters': '{number} sur {most} caractères',
  'wish.oneRoom': 'Une demande est pour une seule salle. Demander {room}, {slot} à la place ?',
  'wish.reallyAgain': 'Ce qui est rempli sera effacé. Redemander « {title} » ?',
  'wish.takeBack': 'Enlever',
  'wish.takeBackSlot': 'Enlever le {slot}',
  'wish.when': '{day}, {hours}',

  // ---- written

  'written.midnight': 'une réunion se termine au plus tard à minuit',
  'written.noEnd': 'n’a ni fin ni durée',
  'written.noLength': '« {text} » n’est pas une durée en minutes',
  'written.noTime': '« {text} » n’est pas une heure',
  'written.twoLengths': 'la durée et la fin ne concordent pas',
});
