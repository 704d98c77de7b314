// The texts of the station in German: texts.js says how they are written.

export const TEXTS = {
  lang: "de",
  language: "Sprache",
  title: "Station",
  screens: {
    line: "Linie",
    scan: "Scannen",
    receive: "Wareneingang",
    changeover: "Umrüsten",
    trace: "Rückverfolgung",
  },
  codes: "Codes zum Drucken",
  who: "{station}, Ausweis {badge}",
  noBadge: "keiner",
  head: {
    fresh: "Desk antwortete vor {seconds} s",
    old: "ALT: Der Desk antwortet nicht. Stand von {time}, vor {seconds} s",
    slow:
      "LANGSAM: Der Desk ist gefragt und hat noch nicht geantwortet. Stand von {time}, vor " +
      "{seconds} s",
    none: "DER DESK ANTWORTET NICHT. Nichts hier ist aktuell",
    news: {
      loggedOut: "Nicht angemeldet",
      none: "Der Desk antwortet nicht",
      slow: "Der Desk ist langsam",
      old: "Der Desk antwortet nicht: Die Anzeige ist alt",
    },
    readOnly: "Diese Anmeldung darf nur lesen: Scannen ist nicht möglich",
    rightUnknown: "Es wird gefragt, ob diese Anmeldung senden darf",
    logIn: "Zum Scannen anmelden",
    loggedOut: "NICHT ANGEMELDET: Nichts hier ist aktuell, und Scannen ist nicht möglich",
  },
  logIn: {
    title: "Anmelden",
    user: "Benutzer",
    password: "Passwort",
    go: "Anmelden",
    asking: "Wird geprüft ..",
    wrong: "Benutzer oder Passwort ist falsch.",
    none: "Keine Antwort. Bitte noch einmal.",
    reads: "Diese Anmeldung darf nur lesen.",
    done: "Sie sind angemeldet und dürfen senden.",
    back: "Zurück zur Station",
  },
  begin: {
    title: "Name dieser Station",
    why:
      "Der Desk speichert diesen Namen zu jedem Scan. Er steht am Rahmen des Bildschirms oder " +
      "am Tisch.",
    label: "Name",
    go: "Beginnen",
    bad:
      "Ein Name hat 1 bis 40 einfache Buchstaben, Ziffern und Zeichen, ohne Leerzeichen am " +
      "Anfang und Ende.",
  },
  setup: {
    wanting: "Es fehlt eine brauchbare Einrichtung: /etc/tracedesk/station/setup.json. {fault}",
    missing: "Die Datei fehlt.",
    noAnswer: "Der Server hat nicht geantwortet. Laden Sie die Seite neu.",
    notAllowed: "Diese Anmeldung darf sie nicht lesen.",
    notRead: "Sie kann nicht gelesen werden: Status {status}.",
    json: "Die Datei ist kein JSON-Objekt.",
    machines: "Sie muss Maschinen aufzählen, jede als {\"machine\": \"M1\"}.",
    member: "Ihr Eintrag {member} ist nicht so, wie docs/station.md es sagt.",
    alike:
      "Nach den Codes kann {one} als {other} gelesen werden. Die Codes jeder Art müssen mit " +
      "Zeichen beginnen, mit denen keine andere beginnt.",
    slot: "ein Platz von {machine}",
    kinds: { action: "eine Aktion", badge: "ein Ausweis", label: "ein Etikett eines Lieferanten" },
    noStore:
      "Dieser Browser speichert nichts, ein Scan könnte verloren gehen. Öffnen Sie die Station " +
      "in einem normalen Fenster, nicht privat, über https.",
  },
  machine: {
    runs: "{machine} fertigt {board}",
    stopped: "{machine} STEHT: {why}",
    unknownSince: "{machine} unbekannt seit {time}",
    unknown: "{machine} unbekannt",
    another: "eine andere Rolle",
    anotherOf: "eine Rolle {part}",
    aScan: "ein Scan wurde abgelehnt",
    causes: {
      idle: "keine Baugruppe gestartet",
      refused:
        "eine Arbeitsmeldung wurde abgelehnt: {refusal}. Eine Baugruppe starten, oder auf " +
        "Linie QUITTIEREN",
      slot: "Platz {slot}: {refusal}. {reel} abnehmen, {load} rüsten",
      slotSplice:
        "Platz {slot}: {refusal}. {reel} abnehmen. {load} SPLEISSEN, oder ABRÜSTEN und die " +
        "Rolle darauf RÜSTEN",
      empty: "Platz {slot} ist leer: {load} rüsten",
      expired: "Platz {slot}, {reel} abgelaufen: abrüsten, {load} rüsten",
      unbaked: "Platz {slot}, {reel} nicht getrocknet: abrüsten, {load} rüsten",
      wrong: "Platz {slot}: {reel} hat das falsche Teil: abrüsten, {load} rüsten",
      held:
        "Platz {slot}: {reel} ist gesperrt. Qualität gibt sie frei, oder abrüsten, {load} " +
        "rüsten",
      sheet: "kein Rüstblatt ist gewählt",
      differs:
        "Die Maschine nahm {reel}, der Desk hat dort eine andere Rolle. Baugruppe " +
        "beiseite legen, ABRÜSTEN, die Rolle darauf RÜSTEN",
    },
  },
  strip: {
    label: "Scan",
    idle: "Platz, Rolle oder Aktion scannen",
    idleNoBadge: "Ausweis scannen, dann Platz, Rolle oder Aktion",
    forgotten: "Lange kein Scan: Das Gemerkte ist verworfen. Neu scannen",
    slot: "{machine} Platz {slot}",
    slotLoad: "braucht {part}, ist leer. Rolle scannen zum RÜSTEN",
    slotSplice: "braucht {part}, hat {reel} mit {left} Stück. Rolle scannen zum SPLEISSEN",
    slotSpliceMore:
      "braucht {part}, hat {reel} mit {left} Stück, {all} auf dem Gurt. Rolle scannen zum " +
      "SPLEISSEN",
    slotUnknown: "Der Desk hat nicht gesagt, was darauf ist. Rolle scannen",
    slotNoSheet: "steht in keiner Zeile der gezeigten Rüstliste. Rolle scannen",
    reel: "Rolle {reel}",
    reelCard: "{part}, Los {lot}, {left} Stück, {state}",
    reelNone: "Der Desk kennt diese Rolle nicht",
    reelAsk:
      "ÖFFNEN, SCHLIESSEN, TROCKNEN oder ZÄHLEN scannen; zum Rüsten zuerst den Platz, dann die " +
      "Rolle",
    question: "Eine Frage ist offen: ENTER für Ja scannen, ABBRECHEN für Nein",
    dropped: "{text} wurde NICHT genommen. Erst antworten, dann noch einmal scannen",
    once:
      "{text} wurde zweimal in einer Sekunde gelesen und zählt einmal. Noch einmal scannen, " +
      "wenn es zweimal gemeint ist",
    twice:
      "{action} wurde zweimal gescannt und zählt einmal. Für einen anderen Platz oder eine " +
      "andere Rolle zuerst diese scannen",
    actionSlot: "{action}: Platz scannen",
    actionReel: "{action}: Rolle scannen",
    number: "{action} {what}: Wie viele Stück? Zahl scannen oder tippen",
    waiting:
      "{count} {count|Scan hat|Scans haben} noch keine Antwort. Aufbewahrt, wird wieder gesendet",
    loggedOut:
      "{count} {count|Scan ist|Scans sind} aufbewahrt und {count|wird|werden} nach der " +
      "Anmeldung gesendet",
    unsafe: "Dieser Browser darf aufbewahrte Scans löschen, wenn die Platte des Tablets voll ist.",
    disk:
      "Die Platte des Tablets hat einen Fehler: {fault}. Es wird wieder versucht. Linienführer " +
      "rufen",
    stuck: "Der Proxy nimmt keinen Scan: Status {status}. {count} aufbewahrt. Linienführer rufen",
  },
  actions: {
    LOAD: "RÜSTEN",
    SPLICE: "SPLEISSEN",
    UNLOAD: "ABRÜSTEN",
    OPEN: "ÖFFNEN",
    SEAL: "SCHLIESSEN",
    BAKE: "TROCKNEN",
    COUNT: "ZÄHLEN",
    SCRAP: "AUSSCHUSS",
    CANCEL: "ABBRECHEN",
    ENTER: "ENTER",
    RECEIVE: "WARENEINGANG",
    SELECT: "WÄHLEN",
  },
  done: {
    LOAD: "GERÜSTET",
    SPLICE: "GESPLEISST",
    UNLOAD: "ABGERÜSTET",
    OPEN: "GEÖFFNET",
    SEAL: "GESCHLOSSEN",
    BAKE: "GETROCKNET",
    COUNT: "GEZÄHLT",
    SCRAP: "AUSSCHUSS GEBUCHT",
    RECEIVE: "EINGEGANGEN",
    SELECT: "PRODUKT GEWÄHLT",
    CLOCK: "UHR GESTELLT",
  },
  verdict: {
    accepted: "ANGENOMMEN: {done}",
    refused: "ABGELEHNT",
    faulty: "NICHT GENOMMEN",
    notSent: "NICHT GESENDET",
    question: "SIND SIE SICHER?",
    yes: "JA (ENTER)",
    no: "NEIN (ABBRECHEN)",
    verified: "GEPRÜFT",
    verifiedFacts:
      "{part}, Charge {lot}, {left} {left|Teil|Teile}, wie der Desk es hat. Nichts wurde " +
      "gesendet",
    asked: "GEFRAGT, NOCH KEINE ANTWORT",
    askedLoad: "NICHT GEPRÜFT: Diesen Platz nicht laufen lassen, bis der Desk Ja sagt.",
    askedWhat:
      "Das ist kein Ja. Hier warten: Der Scan ist aufbewahrt und wird gesendet, bis der Desk " +
      "antwortet.",
    again: "Zu einem Scan von {time}, der bis jetzt keine Antwort hatte",
    where: {
      both: "{machine} Platz {slot} · {reel}",
      slot: "{machine} Platz {slot}",
      reel: "{reel}",
      product: "{machine} · {product}",
      clock: "{time}",
    },
    sides: {
      scanned: "GESCANNT",
      wanted: "GEBRAUCHT",
      reel: "Rolle {reel}",
      slot: "Platz {slot}",
      unknown: "unbekannt",
    },
    isOn:
      "{reel} ist auf {machine} Platz {slot}. Andere Rolle nehmen, oder zuerst {machine} Platz " +
      "{slot} ABRÜSTEN.",
    moreRefused: "und {count} weitere {count|Ablehnung|Ablehnungen}, die niemand gesehen hat",
    minutes: "Restzeit: {life}",
    taken: "{taken} Stück abgezogen",
    number: "Befehl {number} des Desks",
    archived: "vom vorigen Desk angenommen; seine Antwort ist im Archiv",
    own: "{part}, Los {lot}",
    ownUnknown: "Der Desk hat nicht gesagt, welches Teil diese Rolle ist.",
    alternate: "Die Rüstliste von {product} ({source}) nennt {part} für diesen Platz.",
    wants: "Platz {slot} braucht {part}",
    notOnSheet: "Platz {slot} steht in keiner Zeile der Rüstliste, die diese Seite kennt",
    bySheet: "nach der Rüstliste von {product} ({source})",
    otherSheet:
      "Für den Desk gilt das Produkt, das auf {machine} gewählt ist. Wurde anderswo ein anderes " +
      "gewählt? Siehe Umrüsten.",
    noSheet:
      "Diese Seite kennt kein Produkt dieser Maschine und kann nicht sagen, was zu bringen ist.",
    free: "Frei dafür, in dieser Reihenfolge:",
    freeRow: "{reel}: {pieces} Stück, {life}",
    freeOthers:
      "Nicht sicher: Die Bereitstellung hat diese an einem anderen Platz. Eine scannen, und der " +
      "Desk sagt, ob sie hier erlaubt ist:",
    otherRow: "{reel} ({own}, an Platz {slot}): {pieces} Stück, {life}",
    freeNone: "Die Bereitstellung nennt keine freie Rolle dafür. Das Lager fragen.",
    freeMore: "und {count} weitere",
    freeUnknown: "Die Liste freier Rollen war nicht zu lesen.",
    close: "Weiter scannen, oder hier tippen",
    seen: "GESEHEN: hier tippen, oder denselben Platz scannen",
    print: "Etikett drucken",
    off: {
      button: "ABGENOMMEN, nichts bestückt ..",
      sure:
        "{where}: Ist die Rolle ab, und wurde nichts von ihr bestückt? Ein Rückruf verlässt " +
        "sich darauf.",
      yes: "JA, abgenommen",
      no: "NEIN",
      noted: "Vermerkt: Die Rolle ist ab, und nichts wurde von ihr bestückt.",
      nothing: "Nichts zu vermerken: Wegen dieses Scans war nichts offen.",
      badge: "NICHT vermerkt: Ausweis scannen, dann noch einmal ABGENOMMEN tippen.",
      failed: "NICHT vermerkt: keine Antwort. Noch einmal ABGENOMMEN tippen.",
      forbidden: "NICHT vermerkt: Die Anmeldung dieser Seite darf nicht senden.",
    },
  },
  ask: {
    again: "{what}: Derselbe Scan davor hat noch keine Antwort. Ist er ein zweites Mal gemeint?",
    rise: "{reel} hat beim Desk noch {left} Stück. Sind {quantity} gezählt?",
    count: "Der Desk hat nicht gesagt, wie viele Stück {reel} hat. Sind {quantity} gezählt?",
    time:
      "Die Uhr des Servers ist gesprungen. Sie sagt {server}, dieses Tablet {tablet}. Stimmt " +
      "{server}? Wenn nicht, den Linienführer rufen: Eine falsche Zeit verbraucht Restzeiten.",
    clock:
      "Die Uhr des Desks wird auf {server} gestellt; dieses Tablet sagt {tablet}. Stimmt " +
      "{server}? Der Desk geht nie zurück: Eine falsche Zeit verbraucht Restzeiten.",
    label: "{held}: Das wurde nicht gesendet. Soll das neue Etikett es ersetzen?",
  },
  life: {
    none: "unbegrenzt",
    unbaked: "zuerst trocknen",
    expired: "ABGELAUFEN",
    days: "{days} T {hours} h",
    hours: "{hours} h {minutes} min",
  },
  fault: {
    verify: {
      noAnswer:
        "NICHT geprüft: Der Desk hat nicht geantwortet. Platz und Rolle noch einmal scannen",
      life:
        "{reel} ist auf {machine} Platz {slot}, aber abgelaufen oder nicht getrocknet. ABRÜSTEN",
      part:
        "{reel} ist auf {machine} Platz {slot}, mit {own}, aber der Rüstplan nennt {wanted}. " +
        "Nur als erlaubte Alternative richtig: Linienführer rufen",
    },
    foreign: "{text} ist ein Platz keiner Maschine dieser Linie.",
    fragment: "{text} ist nur der Anfang eines Codes. Noch einmal scannen.",
    none: "{text} kann kein Name sein: 1 bis 64 einfache Buchstaben, Ziffern und Zeichen.",
    action: "{text} ist keine Aktion dieser Station.",
    receiveFirst: "{text} gehört zum Wareneingang. Zuerst WARENEINGANG scannen.",
    number: "{text} ist keine Zahl von {least} bis {most}.",
    numberIsName: "{text} ist der Name der Rolle und keine Stückzahl.",
    rightUnknown:
      "Es ist noch nicht bekannt, ob diese Anmeldung senden darf. Gleich noch einmal scannen.",
    badge: "Zuerst den Ausweis scannen, dann noch einmal.",
    readOnly: "Diese Anmeldung darf nur lesen. Nichts wurde gesendet.",
    loggedOut:
      "Niemand ist angemeldet. Nichts wurde gesendet: oben anmelden, dann noch einmal scannen.",
    noTime:
      "Die Zeit des Servers ist nicht bekannt, deshalb kann nichts gesendet werden. Noch einmal " +
      "scannen, wenn er antwortet.",
    notKept:
      "Der Scan konnte auf diesem Tablet nicht gespeichert werden. Noch einmal scannen. {fault}",
    label: "Das ist kein Etikett der Form, die diese Station liest.",
    kept:
      "VERWORFEN: {what}. Derselbe Scan davor ist aufbewahrt und hat noch keine Antwort. Ist er " +
      "ein zweites Mal gemeint, nach dieser Antwort noch einmal scannen.",
    unended:
      "VERWORFEN: {text}. Der Scanner hat weder Enter noch Tab gesendet. Noch einmal scannen.",
  },
  line: {
    product: "fertigt {product}",
    productFrom: {
      setup: "nach der Einrichtung dieser Seite",
      setupAt: "nach der Einrichtung dieser Seite, {time}",
      station: "an dieser Station gewählt um {time}, Befehl {number}",
    },
    sheetAt: "Rüstliste von {time}",
    productNone: "für diese Seite ist kein Produkt genannt",
    notTold:
      "Der Desk sagt nicht, welches Produkt gewählt ist. Bei Umrüsten wählen, oder in der " +
      "Einrichtung nennen.",
    differs:
      "PASST NICHT: {count} {count|Platz hat|Plätze haben} ein anderes Teil als diese " +
      "Rüstliste. Ist ein anderes Produkt gewählt?",
    unknownMachine:
      "Keine Rüstliste des Desks nennt diese Maschine: die Schreibweise in der Einrichtung " +
      "ansehen.",
    unknownSheet: "Der Desk hat keine Rüstliste von {product} für diese Maschine.",
    head: {
      slot: "Platz",
      part: "Teil",
      reel: "vorn",
      left: "Stück",
      all: "auf Gurt",
      boards: "Baugr.",
      behind: "dahinter",
      life: "Restzeit",
      state: "Zustand",
    },
    states: {
      STOPS: "STOPPT",
      EMPTY: "LEER",
      LOW: "KNAPP",
      EXPIRES: "LÄUFT AB",
      EXPIRED: "ABGELAUFEN",
      OTHER: "ANDERES TEIL",
      OK: "OK",
      OFF: "NICHT AUF LISTE",
      NOSHEET: "KEINE LISTE",
    },
    stops: {
      load: "STOPPT: {load} RÜSTEN",
      splice: "STOPPT: {load} SPLEISSEN",
      change: "STOPPT: ABRÜSTEN, {load} RÜSTEN",
      there: "STOPPT: ABRÜSTEN, die Rolle darauf RÜSTEN",
    },
    urgent: {
      where: "{machine} {slot}",
      EXPIRED: "ABGELAUFEN",
      BEHIND: "DAHINTER ABGELAUFEN",
      EMPTY: "LEER",
      LOW: "KNAPP: {boards} {boards|Baugruppe|Baugruppen}",
      EXPIRES: "LÄUFT AB {life}",
      soon: "{minutes} min",
    },
    untraced: "{where}: {message} {board} ABGELEHNT um {time}: {refusal}",
    untracedDo: "Halt. Baugruppe beiseite legen und Qualität rufen, die darüber entscheidet",
    acknowledge: "QUITTIEREN",
    unverified: "{machine} {slot}: {reel} NICHT GEPRÜFT",
    unverifiedDo: "Diesen Platz nicht laufen lassen, bis der Desk geantwortet hat",
    more: "und {count} weitere",
    allMachines: "Alle Maschinen",
    board: "Baugruppe {board} in Arbeit",
    splice: "SPLEISSEN {machine} {slot} in {minutes} min",
    spliceMore: "und {count} weitere",
    lifeOf: "{life}: {reel}",
    sort: "Folge",
    sorts: { sheet: "Rüstliste", pieces: "zuerst leer", life: "zuerst abgelaufen" },
    alarms: "{count} {state}",
    calm: "Kein Platz ist leer, knapp, abgelaufen oder läuft ab",
    low:
      "KNAPP ist weniger als {boards} {boards|Baugruppe|Baugruppen}, oder weniger als {splice} " +
      "{splice|Minute|Minuten} beim Takt der Maschine. LÄUFT AB ist weniger als {minutes} " +
      "{minutes|Minute|Minuten}. Die Restzeit ist die der Rolle auf dem Platz, die zuerst " +
      "abläuft, Stand der letzten Meldung an den Desk.",
    behind: "{reel} {left}",
    overdue: "{count} ÜBERFÄLLIG um {time}: Qualität sieht bei Rückverfolgung nach",
  },
  scan: {
    title: "Scannen",
    history: "Letzte Scans dieser Station",
    noHistory: "Noch keine.",
    head: { time: "Zeit", what: "was", answer: "Antwort" },
    waiting: "noch keine Antwort",
  },
  what: {
    LOAD: "{reel} auf Platz {slot} von {machine} rüsten",
    SPLICE: "{reel} auf Platz {slot} von {machine} spleißen",
    UNLOAD: "Platz {slot} von {machine} abrüsten",
    OPEN: "{reel} öffnen",
    SEAL: "{reel} schließen",
    BAKE: "{reel} trocknen",
    COUNT: "{quantity} auf {reel} zählen",
    SCRAP: "{quantity} Ausschuss an Platz {slot} von {machine}",
    RECEIVE: "Eingang {reel}, {quantity} {part}",
    SELECT: "{product} auf {machine} wählen",
    CLOCK: "Uhr des Desks stellen",
  },
  receive: {
    title: "Eingang einer Rolle",
    hint:
      "Das Etikett des Lieferanten scannen oder die Felder ausfüllen. Dann den Namen der Rolle " +
      "scannen oder tippen, und ihre Stufe scannen oder wählen. ENTER sendet.",
    reel: "Rolle",
    part: "Teil",
    lot: "Los",
    quantity: "Stück",
    level: "Feuchtestufe",
    minutes: "Minuten auf dem Etikett (Stufe 6)",
    go: "Eingang buchen",
    clear: "Leeren",
    ready: "Alles ist ausgefüllt. Prüfen, dann Enter drücken oder ENTER scannen.",
    sent: "Gefragt. Die Angaben bleiben hier, bis der Desk sie angenommen hat.",
    notTaken: "Nicht gebucht: {title}. Verbessern und noch einmal senden.",
    read: "Vom Etikett gelesen: {fields}",
    bad: "{field} ist nicht so, wie der Desk es nimmt.",
    next: "Jetzt scannen oder ausfüllen: {field}.",
    levelWanted: "Jetzt die Feuchtestufe scannen oder wählen: Sie steht auf dem Beutel.",
  },
  changeover: {
    title: "Umrüsten",
    product: "Produkt",
    boards: "Baugruppen",
    machine: "Maschine",
    select: "Auf {machine} wählen",
    selectAll: "Auf allen wählen",
    show: "Bereitstellung zeigen",
    pick: "Bringliste",
    clock: "Uhr des Desks stellen",
    asking: "Der Desk wird gefragt ..",
    pickHead: {
      where: "Platz",
      part: "Teil",
      lasts: "reicht für",
      bring: "zu bringen",
      missing: "fehlt",
    },
    pickTitle:
      "Zu bringen für {boards} {boards|Baugruppe|Baugruppen} von dem, was jede Maschine " +
      "fertigt, das Dringendste zuerst, Stand {time}",
    pickNone: "Nichts ist zu bringen: Jeder Platz hat seine Stücke.",
    lasts: "{boards} {boards|Baugruppe|Baugruppen}",
    lastsMinutes: "{boards} {boards|Baugruppe|Baugruppen}, {minutes} min",
    head: {
      slot: "Platz",
      part: "Teil",
      needed: "gebraucht",
      mounted: "auf dem Platz",
      bring: "zu bringen",
      missing: "fehlt",
    },
    ready: "Vollständig: Jeder Platz hat seine Stücke, gerüstet oder frei im Lager.",
    missing: "Plätze, denen Stücke FEHLEN: {count}",
    empty: "Plätze ohne Rolle: {count}. Vor dem Start rüsten.",
    other:
      "Plätze mit einer Rolle eines anderen Teils: {count}. Beim Start der Arbeit sagt der " +
      "Desk, ob sie dort erlaubt ist.",
    expired: "Plätze mit abgelaufener Rolle: {count}. ABRÜSTEN.",
    unsure: "Plätze, denen Stücke fehlen, wenn das andere Teil nicht erlaubt ist: {count}",
    onSlot: "{mounted}, und {other} von {parts}",
    onExpired: "ABGELAUFEN: {reels}",
    reel: "{reel} ({pieces}, {life})",
    inStore: "{reel} in {place}",
    from: "{reel} von Platz {slot} von {machine}: dort ABRÜSTEN",
    orMissing: "{unsure}, wenn {parts} nicht erlaubt ist",
    how:
      "Es fehlt, was weder der Platz noch die freien Rollen haben. Was auf einem Platz ist, " +
      "zählt zuerst. Keine Rolle ist zweimal genannt, über alle Maschinen.",
    asked:
      "Bereitstellung von {product} auf {machine} für {boards} {boards|Baugruppe|Baugruppen}, " +
      "Stand {time}",
    unknownSheet: "Der Desk hat keine Rüstliste von {product} für {machine}.",
    unknownMachine: "Keine Rüstliste des Desks nennt {machine}: Der Name ist unbekannt.",
    notHad: "Der Desk hat nicht geantwortet.",
    work:
      "Der Desk sagt nicht, welche Baugruppe in Arbeit ist. Solange eine es ist, wird eine Wahl " +
      "abgelehnt.",
    badName: "Ein Produkt angeben, und eine Zahl von 1 bis 100.000 Baugruppen.",
  },
  cart: {
    label: "Wagen: eine Zeile je Platz, wie 1,K-01",
    load: "Nach der Liste auf {machine} rüsten",
    scan: "LISTE SCANNEN",
    listed:
      "{machine} {slot}: {reel} ist auf der Liste, mit {count} {count|Platz|Plätzen}. Nichts " +
      "wird gesendet",
    other: "Diese Liste ist von {machine}. Danach rüsten, oder eine neue beginnen",
    ask:
      "{machine}: Nach dieser Liste {unload|wird|werden} {unload} {unload|Platz|Plätze} " +
      "abgerüstet, dann {load} {load|Platz|Plätze} gerüstet. Steht der Wagen an der Maschine?",
    none: "Jeder Platz hat schon die Rolle der Liste.",
    row: "Zeile {row} ist nicht Platz und Rolle: {text}",
    twice: "Zeile {row} hat einen Platz oder eine Rolle von oben noch einmal: {text}",
    waiting: "{count} {count|Meldung|Meldungen} der Liste {count|hat|haben} noch keine Antwort",
    done: "Die Liste ist fertig: {accepted} angenommen, {refused} abgelehnt",
  },
  trace: {
    title: "Rückverfolgung",
    lot: "Baugruppen eines Loses",
    board: "Teile einer Baugruppe",
    reel: "Karte einer Rolle",
    overdue: "Überfällige Teile",
    what: "Frage",
    name: "Name",
    detail: "Detail",
    go: "Fragen",
    csv: "Als CSV speichern",
    print: "Drucken",
    filter: "Filter",
    shown: "{shown} von {count} {count|Zeile|Zeilen}",
    more:
      "Die ersten {shown} von {count} Zeilen sind gezeigt; der Druck hat alle davon, die Datei " +
      "alle ohne Filter.",
    filtered: "Filter: \"{filter}\", {shown} von {count} {count|Zeile|Zeilen}.",
    unfiltered: "Filter: keiner.",
    ascending: "Folge: {column}, aufsteigend.",
    descending: "Folge: {column}, absteigend.",
    unsorted: "Folge: wie der Desk antwortete.",
    evidence: "Gefragt: {asked}. Desk: {desk}, auf {host}. Beantwortet: {time}. Zeilen: {count}.",
    upTo: "Der letzte Befehl, den diese Station vorher angenommen sah: {number}, um {time}.",
    upToNone: "Diese Station sah vorher keinen angenommenen Befehl.",
    old: "Diese Antwort ist ALT: Der Desk antwortet nicht.",
    unknown: {
      Lot: "Keine Rolle dieses Loses ging ein.",
      Board: "Keine Arbeit an dieser Baugruppe wurde gestartet.",
      Reel: "Diese Rolle ging nicht ein.",
    },
    badName: "Ein Name hat 1 bis 64 einfache Buchstaben, Ziffern und Zeichen.",
    notHad: "Der Desk hat nicht geantwortet. Noch einmal fragen.",
    archives: "Nur von diesem Desk: tracedesk-recall fragt auch archivierte.",
  },
  codesPage: {
    title: "Codes der Station",
    hint: "Diese Seite drucken und neben den Bildschirm hängen. Jeder Code ist ein Code 128.",
    actions: "Aktionen",
    screens: "Ansichten",
    digits: "Ziffern; ENTER bucht auch den Eingang",
    levels: "Feuchtestufen, für den Wareneingang",
    level: "Stufe {level}",
    slots: "Plätze von {machine}, {product}",
    labels: "Etiketten",
    labelsHint: "Ein Name je Zeile. Nur diese Etiketten werden gedruckt.",
    badges: "Ausweise",
    reels: "Rollen",
    make: "Etiketten machen",
    all: "Alle Codes",
    print: "Drucken",
    tooLong: "zu lang zum Drucken: kürzere Namen wählen",
    notName: "{name} kann kein Name sein",
  },
  refusals: {
    IdReused: [
      "Die Nummer dieses Scans wurde schon benutzt",
      "Linienführer rufen: Zwei Tablets haben vielleicht einen Speicher.",
    ],
    DeskFull: ["Der Desk ist voll", "Linienführer rufen: Ein neuer Desk muss begonnen werden."],
    TooFarAhead: [
      "Die Zeit liegt mehr als 14 Tage nach der letzten Meldung des Desks",
      "Linienführer rufen: Beim Umrüsten die Uhr des Desks stellen, wenn die des Servers stimmt.",
    ],
    PartExists: ["Teil {at} ist schon bekannt", "Nichts ist zu tun."],
    UnknownPart: [
      "Teil {at} ist unbekannt",
      "Die Teilenummer ansehen. Sonst muss das Teil erst angelegt werden.",
    ],
    ReelExists: [
      "Rolle {at} ging schon ein",
      "Wurde ihr Etikett zweimal gescannt? Jede Rolle braucht einen eigenen Namen.",
    ],
    UnknownReel: [
      "Rolle {at} ist unbekannt",
      "Noch einmal scannen, oder zuerst den Eingang buchen.",
    ],
    UnknownSheet: [
      "{at} hat keine Rüstliste für diese Maschine",
      "Ein anderes Produkt wählen, oder die Rüstliste anlegen lassen.",
    ],
    MachineBusy: ["Auf {at} ist eine Baugruppe in Arbeit", "Sie muss zuerst fertig werden."],
    SlotTwice: ["Platz {at} steht zweimal auf der Rüstliste", "Die Rüstliste verbessern lassen."],
    DesignatorTwice: [
      "Position {at} ist zweimal genannt",
      "Rüstliste oder Programm verbessern lassen.",
    ],
    NoProduct: [
      "Auf {at} ist kein Produkt gewählt",
      "Bei Umrüsten das Produkt wählen, dann noch einmal scannen.",
    ],
    SlotNotOnSheet: [
      "Platz {at} steht nicht auf der Rüstliste des gewählten Produkts",
      "War ein anderer Platz gemeint? Ist das richtige Produkt gewählt?",
    ],
    SlotTaken: [
      "Platz {at} hat eine Rolle mit Stücken",
      "Platz und Rolle noch einmal scannen zum Spleißen, oder den Platz zuerst ABRÜSTEN.",
    ],
    SlotEmpty: [
      "Platz {at} hat keine Rolle mit Stücken",
      "Platz und Rolle noch einmal scannen zum Rüsten.",
    ],
    ReelMounted: [
      "Rolle {at} ist auf einem Platz, mit Stücken",
      "Andere Rolle nehmen, oder zuerst ihren Platz ABRÜSTEN.",
    ],
    ReelEmpty: [
      "Rolle {at} hat kein Stück mehr",
      "Andere Rolle nehmen. Eine leere Rolle bleibt leer.",
    ],
    WrongPart: [
      "FALSCHES TEIL: {at} gehört nicht hierher",
      "Abnehmen. Eine Rolle des richtigen Teils bringen.",
    ],
    NotBaked: [
      "Rolle {at} ist von Stufe 6 und wurde nicht getrocknet",
      "Trocknen lassen, dann TROCKNEN und die Rolle scannen.",
    ],
    Expired: [
      "ABGELAUFEN: Die Restzeit von {at} ist verbraucht",
      "Andere Rolle nehmen. Diese trocknen lassen.",
    ],
    BoardBusy: [
      "Baugruppe {at} ist auf einer anderen Maschine in Arbeit",
      "Sie muss dort fertig werden.",
    ],
    OtherProduct: [
      "Baugruppe {at} wurde als anderes Produkt begonnen",
      "Die Seriennummer ansehen, oder ihr Produkt wählen.",
    ],
    NotInWork: [
      "Baugruppe {at} ist auf dieser Maschine nicht in Arbeit",
      "Starten lassen, oder die Seriennummer ansehen.",
    ],
    DesignatorNotOnSheet: [
      "Position {at} steht nicht auf der Rüstliste",
      "Rüstliste oder Bestückprogramm verbessern lassen.",
    ],
    AlreadyPlaced: [
      "{at} wurde auf dieser Baugruppe schon bestückt",
      "Nichts, wenn es zweimal gemeldet wurde.",
    ],
    ReelShort: [
      "Die Rollen an {at} haben zu wenig Stücke",
      "Die Zahl verbessern. Oder das Rüsten oder Spleißen scannen, das fehlt.",
    ],
    ReelTwice: ["Rolle {at} ist zweimal gezählt", "Die Zählung verbessern."],
    CountAbove: [
      "Auf {at} wurden Stücke gezählt, aber sie hat keine mehr",
      "Ist es die richtige Rolle? Dann die Stücke als neue Rolle eingehen lassen.",
    ],
  },
  unknownMachine:
    "Keine Rüstliste des Desks nennt diese Maschine: Ihr Name ist unbekannt. Die Schreibweise " +
    "in der Einrichtung ansehen.",
  faulty: [
    "Der Desk kann diese Meldung nicht lesen: {fault} {member}",
    "Rufen, wer die Station eingerichtet hat.",
  ],
  ignored: [
    "Der Desk kennt diese Art Meldung nicht: {name}",
    "Rufen, wer die Station eingerichtet hat.",
  ],
  otherRefusal: ["Der Desk sagt {refusal}: {at}", "Linienführer rufen."],
};
