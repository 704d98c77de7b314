// The texts of the station in Spanish: texts.js says how they are written.

export const TEXTS = {
  lang: "es",
  language: "Idioma",
  title: "Estación",
  screens: {
    line: "Línea",
    scan: "Escanear",
    receive: "Recepción",
    changeover: "Cambio",
    trace: "Trazabilidad",
  },
  codes: "Códigos para imprimir",
  who: "{station}, credencial {badge}",
  noBadge: "ninguna",
  head: {
    fresh: "desk respondió hace {seconds} s",
    old: "ANTIGUO: el desk no responde. Datos de las {time}, hace {seconds} s",
    slow: "LENTO: se preguntó al desk y aún no respondió. Datos de las {time}, hace {seconds} s",
    none: "EL DESK NO RESPONDE. Nada aquí está al día",
    news: {
      loggedOut: "Sin sesión",
      none: "El desk no responde",
      slow: "El desk va lento",
      old: "El desk no responde: lo que se ve es antiguo",
    },
    readOnly: "Este usuario solo puede leer: no se puede escanear",
    rightUnknown: "Se pregunta si este usuario puede enviar",
    logIn: "Entrar para escanear",
    loggedOut: "SIN SESIÓN: nada aquí está al día y no se puede escanear",
  },
  logIn: {
    title: "Entrar",
    user: "Usuario",
    password: "Contraseña",
    go: "Entrar",
    asking: "Comprobando ..",
    wrong: "El usuario o la contraseña no son correctos.",
    none: "Sin respuesta. Inténtelo otra vez.",
    reads: "Este usuario solo puede leer.",
    done: "Ha entrado y puede enviar.",
    back: "Volver a la estación",
  },
  begin: {
    title: "Nombre de esta estación",
    why:
      "El desk guarda este nombre con cada escaneo. Está en el marco de la pantalla o en la mesa.",
    label: "Nombre",
    go: "Empezar",
    bad:
      "Un nombre tiene de 1 a 40 letras simples, cifras y signos, sin espacios al principio ni " +
      "al final.",
  },
  setup: {
    wanting: "No hay una configuración válida: /etc/tracedesk/station/setup.json. {fault}",
    missing: "Falta el archivo.",
    noAnswer: "El servidor no respondió. Cargue la página de nuevo.",
    notAllowed: "Este usuario no puede leerla.",
    notRead: "No se puede leer: estado {status}.",
    json: "El archivo no es un objeto JSON.",
    machines: "Debe listar máquinas, cada una como {\"machine\": \"M1\"}.",
    member: "Su miembro {member} no es como dice docs/station.md.",
    alike:
      "Por sus códigos, {one} puede leerse como {other}. Los códigos de cada clase deben " +
      "empezar con letras con las que no empiece otra.",
    slot: "una posición de {machine}",
    kinds: { action: "una acción", badge: "una credencial", label: "una etiqueta de proveedor" },
    noStore:
      "Este navegador no guarda nada en disco y un escaneo podría perderse. Abra la estación en " +
      "una ventana que no sea privada, por https.",
  },
  machine: {
    runs: "{machine} fabrica {board}",
    stopped: "{machine} PARADA: {why}",
    unknownSince: "{machine} sin datos desde {time}",
    unknown: "{machine} sin datos",
    another: "otro rollo",
    anotherOf: "un rollo de {part}",
    aScan: "un escaneo fue rechazado",
    causes: {
      idle: "ninguna placa iniciada",
      refused:
        "se rechazó un aviso de trabajo: {refusal}. Inicie una placa, o toque ENTERADO en " +
        "Línea",
      slot: "posición {slot}: {refusal}. Quite {reel}, cargue {load}",
      slotSplice:
        "posición {slot}: {refusal}. Quite {reel}. EMPALME {load}, o DESCARGUE y CARGUE el " +
        "carrete que está en ella",
      empty: "posición {slot} vacía: cargue {load}",
      expired: "posición {slot}, {reel} caducado: descárguelo, cargue {load}",
      unbaked: "posición {slot}, {reel} sin hornear: descárguelo, cargue {load}",
      wrong: "posición {slot}: {reel} es de otra pieza: descárguelo, cargue {load}",
      held:
        "posición {slot}: {reel} está retenido. Calidad lo libera, o descárguelo, cargue " +
        "{load}",
      sheet: "ninguna hoja elegida",
      differs:
        "la máquina tomó {reel}, que el desk no tiene ahí. Aparte la placa, DESCARGUE, " +
        "CARGUE el carrete que está en ella",
    },
  },
  strip: {
    label: "Escaneo",
    idle: "Escanee una posición, un rollo o una acción",
    idleNoBadge: "Escanee su credencial, luego posición, rollo o acción",
    forgotten: "Se olvidó lo retenido: mucho tiempo sin escanear. Escanee de nuevo",
    slot: "{machine} posición {slot}",
    slotLoad: "necesita {part}, está vacía. Escanee el rollo para CARGAR",
    slotSplice:
      "necesita {part}, tiene {reel} con {left} {left|pieza|piezas}. Escanee el rollo para " +
      "EMPALMAR",
    slotSpliceMore:
      "necesita {part}, tiene {reel} con {left} {left|pieza|piezas}, y {all} en la cinta. " +
      "Escanee el rollo para EMPALMAR",
    slotUnknown: "El desk no ha dicho qué hay. Escanee el rollo",
    slotNoSheet: "no está en ninguna fila de la hoja mostrada. Escanee el rollo",
    reel: "Rollo {reel}",
    reelCard: "{part}, lote {lot}, {left} {left|pieza|piezas}, {state}",
    reelNone: "El desk no conoce ese rollo",
    reelAsk:
      "Escanee ABRIR, SELLAR, HORNEAR o CONTAR; para cargarlo, primero la posición y luego el " +
      "rollo",
    question: "Hay una pregunta: escanee ENTER para sí, CANCELAR para no",
    dropped: "{text} NO se tomó. Responda primero y escanéelo otra vez",
    once: "{text} se leyó dos veces en un segundo y cuenta una vez. Escanéelo otra vez si son dos",
    twice:
      "{action} se escaneó dos veces y cuenta una vez. Para otra posición u otro rollo, " +
      "escanéelo primero",
    actionSlot: "{action}: escanee la posición",
    actionReel: "{action}: escanee el rollo",
    number: "{action} {what}: ¿cuántas piezas? Escanee o teclee el número",
    waiting:
      "{count} {count|escaneo|escaneos} sin respuesta. Se {count|guarda|guardan} y se " +
      "{count|reenvía|reenvían}",
    loggedOut:
      "{count} {count|escaneo guardado|escaneos guardados}: se {count|enviará|enviarán} cuando " +
      "alguien entre",
    unsafe: "Este navegador puede borrar escaneos guardados si el disco de la tableta se llena.",
    disk: "Falla el disco de la tableta: {fault}. Se intenta de nuevo. Llame al jefe de línea",
    stuck: "El proxy no toma escaneos: estado {status}. {count} guardados. Llame al jefe de línea",
  },
  actions: {
    LOAD: "CARGAR",
    SPLICE: "EMPALMAR",
    UNLOAD: "DESCARGAR",
    OPEN: "ABRIR",
    SEAL: "SELLAR",
    BAKE: "HORNEAR",
    COUNT: "CONTAR",
    SCRAP: "DESECHAR",
    CANCEL: "CANCELAR",
    ENTER: "ENTER",
    RECEIVE: "RECEPCIÓN",
    SELECT: "ELEGIR",
  },
  done: {
    LOAD: "CARGADO",
    SPLICE: "EMPALMADO",
    UNLOAD: "DESCARGADO",
    OPEN: "ABIERTO",
    SEAL: "SELLADO",
    BAKE: "HORNEADO",
    COUNT: "CONTADO",
    SCRAP: "DESECHADO",
    RECEIVE: "RECIBIDO",
    SELECT: "PRODUCTO ELEGIDO",
    CLOCK: "RELOJ PUESTO",
  },
  verdict: {
    accepted: "ACEPTADO: {done}",
    refused: "RECHAZADO",
    faulty: "NO TOMADO",
    notSent: "NO ENVIADO",
    question: "¿ESTÁ SEGURO?",
    yes: "SÍ (ENTER)",
    no: "NO (CANCELAR)",
    verified: "VERIFICADO",
    verifiedFacts:
      "{part}, lote {lot}, {left} {left|pieza|piezas}, según el desk. No se envió nada",
    asked: "PREGUNTADO, AÚN SIN RESPUESTA",
    askedLoad: "NO VERIFICADO: no use esta posición hasta que el desk diga sí.",
    askedWhat:
      "Esto no es un sí. Espere aquí: el escaneo está guardado y se envía hasta que el desk " +
      "responda.",
    again: "De un escaneo de las {time}, que no tenía respuesta hasta ahora",
    where: {
      both: "{machine} posición {slot} · {reel}",
      slot: "{machine} posición {slot}",
      reel: "{reel}",
      product: "{machine} · {product}",
      clock: "{time}",
    },
    sides: {
      scanned: "ESCANEADO",
      wanted: "NECESARIO",
      reel: "rollo {reel}",
      slot: "posición {slot}",
      unknown: "desconocido",
    },
    isOn:
      "{reel} está en {machine} posición {slot}. Tome otro rollo, o primero DESCARGUE {machine} " +
      "posición {slot}.",
    moreRefused: "y {count} {count|rechazo|rechazos} más que nadie ha visto",
    minutes: "vida útil restante: {life}",
    taken: "{taken} {taken|pieza descontada|piezas descontadas}",
    number: "orden {number} del desk",
    archived: "aceptado por el desk anterior; su respuesta está en el archivo",
    own: "{part}, lote {lot}",
    ownUnknown: "El desk no dijo qué pieza es este rollo.",
    alternate: "La hoja de {product} ({source}) nombra {part} para esta posición.",
    wants: "La posición {slot} necesita {part}",
    notOnSheet: "La posición {slot} no está en ninguna fila de la hoja que esta página conoce",
    bySheet: "según la hoja de {product} ({source})",
    otherSheet:
      "Para el desk vale el producto elegido en {machine}. ¿Se eligió otro en otro lugar? Mire " +
      "Cambio.",
    noSheet: "Esta página no conoce ningún producto de esta máquina y no puede decir qué traer.",
    free: "Libres, en este orden:",
    freeRow: "{reel}: {pieces} {pieces|pieza|piezas}, {life}",
    freeOthers:
      "No es seguro: la lista los tiene en otra posición. Escanee uno y el desk dirá si aquí " +
      "está permitido:",
    otherRow: "{reel} ({own}, en posición {slot}): {pieces} {pieces|pieza|piezas}, {life}",
    freeNone: "La lista no nombra ningún rollo libre. Pregunte al almacén.",
    freeMore: "y {count} más",
    freeUnknown: "No se pudo leer la lista de rollos libres.",
    close: "Siga escaneando, o toque aquí",
    seen: "VISTO: toque aquí, o escanee la misma posición",
    print: "Imprimir su etiqueta",
    off: {
      button: "QUITADO, nada colocado ..",
      sure:
        "{where}: ¿está quitado el rollo y no se colocó nada de él? Una retirada se fiará de esto.",
      yes: "SÍ, quitado",
      no: "NO",
      noted: "Anotado: el rollo se quitó y no se colocó nada de él.",
      nothing: "Nada que anotar: no había nada abierto por este escaneo.",
      badge: "NO anotado: escanee su credencial y toque QUITADO otra vez.",
      failed: "NO anotado: sin respuesta. Toque QUITADO otra vez.",
      forbidden: "NO anotado: el usuario de esta página no puede enviar.",
    },
  },
  ask: {
    again: "{what}: el mismo escaneo anterior aún no tiene respuesta. ¿Es una segunda vez?",
    rise: "{reel} tiene {left} {left|pieza|piezas} en el desk. ¿El recuento es {quantity}?",
    count: "El desk no ha dicho cuántas piezas tiene {reel}. ¿El recuento es {quantity}?",
    time:
      "El reloj del servidor saltó. Dice {server}, esta tableta {tablet}. ¿Es correcto " +
      "{server}? Si no, llame al jefe de línea: una hora falsa gasta vida útil.",
    clock:
      "El reloj del desk se pone a {server}; esta tableta dice {tablet}. ¿Es correcto {server}? " +
      "El desk nunca vuelve atrás: una hora falsa gasta vida útil.",
    label: "{held}: esto no se envió. ¿La etiqueta nueva lo sustituye?",
  },
  life: {
    none: "sin límite",
    unbaked: "hornear primero",
    expired: "CADUCADO",
    days: "{days} d {hours} h",
    hours: "{hours} h {minutes} min",
  },
  fault: {
    verify: {
      noAnswer: "NO verificado: el desk no respondió. Escanee otra vez la posición y el rollo",
      life: "{reel} está en {machine} posición {slot}, pero caducado o sin hornear. DESCÁRGUELO",
      part:
        "{reel} está en {machine} posición {slot}, de {own}, pero la hoja nombra {wanted}. Solo " +
        "vale como alternativa: llame al jefe de línea",
    },
    foreign: "{text} no es posición de ninguna máquina de esta línea.",
    fragment: "{text} es solo el principio de un código. Escanéelo otra vez.",
    none: "{text} no puede ser un nombre: de 1 a 64 letras simples, cifras y signos.",
    action: "{text} no es una acción de esta estación.",
    receiveFirst: "{text} es de la pantalla Recepción. Escanee primero RECEPCIÓN.",
    number: "{text} no es un número de {least} a {most}.",
    numberIsName: "{text} es el nombre del rollo y no un número de piezas.",
    rightUnknown: "Aún no se sabe si este usuario puede enviar. Escanee de nuevo en un momento.",
    badge: "Escanee primero su credencial y repita.",
    readOnly: "Este usuario solo puede leer. No se envió nada.",
    loggedOut: "No hay sesión. No se envió nada: entre arriba y escanee otra vez.",
    noTime:
      "No se conoce la hora del servidor y nada puede enviarse. Escanee de nuevo cuando responda.",
    notKept: "El escaneo no se pudo guardar en esta tableta. Escanee otra vez. {fault}",
    label: "No es una etiqueta de la forma que lee esta estación.",
    kept:
      "DESCARTADO: {what}. El mismo escaneo anterior está guardado y sin respuesta. Si es una " +
      "segunda vez, escanéelo después de esa respuesta.",
    unended: "DESCARTADO: {text}. El escáner no terminó con Enter ni con Tab. Escanéelo otra vez.",
  },
  line: {
    product: "fabrica {product}",
    productFrom: {
      setup: "según la configuración de esta página",
      setupAt: "según la configuración de esta página, {time}",
      station: "elegido en esta estación a las {time}, orden {number}",
    },
    sheetAt: "hoja de las {time}",
    productNone: "no se nombró ningún producto a esta página",
    notTold:
      "El desk no dice qué producto está elegido. Elíjalo en Cambio, o nómbrelo en la " +
      "configuración.",
    differs:
      "NO COINCIDE: {count} {count|posición tiene|posiciones tienen} otra pieza que la de esta " +
      "hoja. ¿Hay otro producto elegido?",
    unknownMachine:
      "Ninguna hoja del desk nombra esta máquina: revise cómo está escrita en la configuración.",
    unknownSheet: "El desk no tiene hoja de {product} para esta máquina.",
    head: {
      slot: "pos.",
      part: "pieza",
      reel: "delante",
      left: "piezas",
      all: "en cinta",
      boards: "placas",
      behind: "detrás",
      life: "vida útil",
      state: "estado",
    },
    states: {
      STOPS: "PARA",
      EMPTY: "VACÍA",
      LOW: "POCO",
      EXPIRES: "CADUCA",
      EXPIRED: "CADUCADO",
      OTHER: "OTRA PIEZA",
      OK: "OK",
      OFF: "NO EN HOJA",
      NOSHEET: "SIN HOJA",
    },
    stops: {
      load: "PARA: CARGAR {load}",
      splice: "PARA: EMPALMAR {load}",
      change: "PARA: DESCARGAR, CARGAR {load}",
      there: "PARA: DESCARGAR, CARGAR el que está en ella",
    },
    urgent: {
      where: "{machine} {slot}",
      EXPIRED: "CADUCADO",
      BEHIND: "CADUCADO DETRÁS",
      EMPTY: "VACÍA",
      LOW: "POCO: {boards} {boards|placa|placas}",
      EXPIRES: "CADUCA {life}",
      soon: "{minutes} min",
    },
    untraced: "{where}: {message} {board} RECHAZADO a las {time}: {refusal}",
    untracedDo: "Pare. Aparte la placa y llame a Calidad, que decide",
    acknowledge: "ENTERADO",
    unverified: "{machine} {slot}: {reel} NO VERIFICADO",
    unverifiedDo: "No use esta posición hasta que el desk responda",
    more: "y {count} más",
    allMachines: "Todas las máquinas",
    board: "placa {board} en curso",
    splice: "EMPALME {machine} {slot} en {minutes} min",
    spliceMore: "y {count} más",
    lifeOf: "{life}: {reel}",
    sort: "Orden",
    sorts: { sheet: "de la hoja", pieces: "se acaba antes", life: "caduca antes" },
    alarms: "{count} {state}",
    calm: "Ninguna posición está vacía, con poco, caducada o por caducar",
    low:
      "POCO es menos de {boards} {boards|placa|placas}, o menos de {splice} " +
      "{splice|minuto|minutos} al ritmo de la máquina. CADUCA es menos de {minutes} " +
      "{minutes|minuto|minutos}. La vida útil es la del rollo de la posición que acaba antes, " +
      "según el último mensaje que tomó el desk.",
    behind: "{reel} {left}",
    overdue: "{count} VENCIDAS a las {time}: Calidad mira en Trazabilidad",
  },
  scan: {
    title: "Escanear",
    history: "Últimos escaneos de esta estación",
    noHistory: "Aún ninguno.",
    head: { time: "hora", what: "qué", answer: "respuesta" },
    waiting: "aún sin respuesta",
  },
  what: {
    LOAD: "cargar {reel} en posición {slot} de {machine}",
    SPLICE: "empalmar {reel} en posición {slot} de {machine}",
    UNLOAD: "descargar posición {slot} de {machine}",
    OPEN: "abrir {reel}",
    SEAL: "sellar {reel}",
    BAKE: "hornear {reel}",
    COUNT: "contar {quantity} en {reel}",
    SCRAP: "desechar {quantity} en posición {slot} de {machine}",
    RECEIVE: "recibir {reel}, {quantity} de {part}",
    SELECT: "elegir {product} en {machine}",
    CLOCK: "poner en hora el reloj del desk",
  },
  receive: {
    title: "Recibir un rollo",
    hint:
      "Escanee la etiqueta del proveedor o rellene los campos. Luego escanee o teclee el nombre " +
      "del rollo, y escanee o elija su nivel. ENTER lo envía.",
    reel: "Rollo",
    part: "Pieza",
    lot: "Lote",
    quantity: "Piezas",
    level: "Nivel de humedad",
    minutes: "Minutos de la etiqueta (nivel 6)",
    go: "Recibir",
    clear: "Vaciar",
    ready: "Todo está relleno. Compruébelo y pulse Enter o escanee ENTER.",
    sent: "Preguntado. Los datos se quedan aquí hasta que el desk los acepte.",
    notTaken: "No recibido: {title}. Corríjalo y envíelo otra vez.",
    read: "Leído de la etiqueta: {fields}",
    bad: "{field} no es como lo toma el desk.",
    next: "Ahora escanee o rellene: {field}.",
    levelWanted: "Ahora escanee o elija el nivel de humedad: está en la bolsa.",
  },
  changeover: {
    title: "Cambio",
    product: "Producto",
    boards: "Placas",
    machine: "Máquina",
    select: "Elegir en {machine}",
    selectAll: "Elegir en todas",
    show: "Ver el kit",
    pick: "Lista de picking",
    clock: "Poner en hora el desk",
    asking: "Se pregunta al desk ..",
    pickHead: {
      where: "posición",
      part: "pieza",
      lasts: "alcanza para",
      bring: "traer",
      missing: "falta",
    },
    pickTitle:
      "Traer para {boards} {boards|placa|placas} de lo que fabrica cada máquina, lo más urgente " +
      "primero, a las {time}",
    pickNone: "No hay que traer nada: cada posición tiene sus piezas.",
    lasts: "{boards} {boards|placa|placas}",
    lastsMinutes: "{boards} {boards|placa|placas}, {minutes} min",
    head: {
      slot: "posición",
      part: "pieza",
      needed: "necesita",
      mounted: "en la posición",
      bring: "traer",
      missing: "falta",
    },
    ready: "Completo: cada posición tiene sus piezas, montadas o libres en almacén.",
    missing: "Posiciones donde FALTAN piezas: {count}",
    empty: "Posiciones sin rollo: {count}. Cárguelas antes de empezar.",
    other:
      "Posiciones con un rollo de otra pieza: {count}. Al empezar, el desk dice si allí está " +
      "permitido.",
    expired: "Posiciones con un rollo caducado: {count}. DESCÁRGUELAS.",
    unsure: "Posiciones donde faltan piezas si la otra pieza no está permitida: {count}",
    onSlot: "{mounted}, y {other} de {parts}",
    onExpired: "CADUCADO: {reels}",
    reel: "{reel} ({pieces}, {life})",
    inStore: "{reel} en {place}",
    from: "{reel} de la posición {slot} de {machine}: DESCÁRGUELO allí",
    orMissing: "{unsure}, si {parts} no está permitida",
    how:
      "Falta lo que no tienen ni la posición ni los rollos libres. Lo que está en una posición " +
      "cuenta primero. Ningún rollo se nombra dos veces, en todas las máquinas.",
    asked: "El kit de {product} en {machine} para {boards} {boards|placa|placas}, a las {time}",
    unknownSheet: "El desk no tiene hoja de {product} para {machine}.",
    unknownMachine: "Ninguna hoja del desk nombra {machine}: el nombre es desconocido.",
    notHad: "El desk no respondió.",
    work: "El desk no dice qué placa está en curso. Mientras haya una, la elección se rechaza.",
    badName: "Indique un producto y un número de placas de 1 a 100.000.",
  },
  cart: {
    label: "Carro: una fila por posición, como 1,K-01",
    load: "Cargar la lista en {machine}",
    scan: "ESCANEAR LA LISTA",
    listed:
      "{machine} {slot}: {reel} está en la lista, de {count} {count|posición|posiciones}. No se " +
      "envía nada",
    other: "Esta lista es de {machine}. Cárguela o empiece otra",
    ask:
      "{machine}: según esta lista se {unload|descarga|descargan} {unload} " +
      "{unload|posición|posiciones} y luego se {load|carga|cargan} {load} " +
      "{load|posición|posiciones}. ¿Está el carro en la máquina?",
    none: "Cada posición tiene ya el rollo de la lista.",
    row: "La fila {row} no es posición y rollo: {text}",
    twice: "La fila {row} repite una posición o un rollo de arriba: {text}",
    waiting: "{count} {count|mensaje|mensajes} de la lista aún sin respuesta",
    done: "Lista terminada: {accepted} aceptados, {refused} rechazados",
  },
  trace: {
    title: "Trazabilidad",
    lot: "Placas de un lote",
    board: "Piezas de una placa",
    reel: "Ficha de un rollo",
    overdue: "Piezas vencidas",
    what: "Pregunta",
    name: "Nombre",
    detail: "Detalle",
    go: "Preguntar",
    csv: "Guardar como CSV",
    print: "Imprimir",
    filter: "Filtro",
    shown: "{shown} de {count} {count|fila|filas}",
    more:
      "Se ven las primeras {shown} de {count} filas; la página impresa las tiene todas, y el " +
      "archivo todas sin filtro.",
    filtered: "Filtro: \"{filter}\", {shown} de {count} {count|fila|filas}.",
    unfiltered: "Filtro: ninguno.",
    ascending: "Orden: {column}, ascendente.",
    descending: "Orden: {column}, descendente.",
    unsorted: "Orden: como respondió el desk.",
    evidence:
      "Preguntado: {asked}. Al desk: {desk}, en {host}. Respondido: {time}. Filas: {count}.",
    upTo: "La última orden que esta estación vio aceptada antes: {number}, a las {time}.",
    upToNone: "Esta estación no vio antes ninguna orden aceptada.",
    old: "Esta respuesta es ANTIGUA: el desk no responde.",
    unknown: {
      Lot: "No se recibió ningún rollo de este lote.",
      Board: "No se inició trabajo en esta placa.",
      Reel: "Este rollo no se recibió.",
    },
    badName: "Un nombre tiene de 1 a 64 letras simples, cifras y signos.",
    notHad: "El desk no respondió. Pregunte otra vez.",
    archives: "Solo de este desk: tracedesk-recall pregunta también a los archivados.",
  },
  codesPage: {
    title: "Códigos de la estación",
    hint: "Imprima esta página y cuélguela junto a la pantalla. Cada código es un Code 128.",
    actions: "Acciones",
    screens: "Pantallas",
    digits: "Números; ENTER también recibe el rollo en Recepción",
    levels: "Niveles de humedad, para Recepción",
    level: "Nivel {level}",
    slots: "Posiciones de {machine}, {product}",
    labels: "Etiquetas",
    labelsHint: "Un nombre por línea. Solo se imprimen estas etiquetas.",
    badges: "Credenciales",
    reels: "Rollos",
    make: "Hacer las etiquetas",
    all: "Todos los códigos",
    print: "Imprimir",
    tooLong: "demasiado largo para imprimir: elija nombres más cortos",
    notName: "{name} no puede ser un nombre",
  },
  refusals: {
    IdReused: [
      "El número de este escaneo ya se usó",
      "Llame al jefe de línea: quizá dos tabletas comparten memoria.",
    ],
    DeskFull: ["El desk está lleno", "Llame al jefe de línea: hay que empezar un desk nuevo."],
    TooFarAhead: [
      "La hora es más de 14 días posterior al último mensaje del desk",
      "Llame al jefe de línea: si el servidor tiene la hora correcta, ponga en hora el desk.",
    ],
    PartExists: ["La pieza {at} ya se conoce", "No hay que hacer nada."],
    UnknownPart: [
      "La pieza {at} es desconocida",
      "Mire el número de pieza. Si no, primero hay que definirla.",
    ],
    ReelExists: [
      "El rollo {at} ya entró antes",
      "¿Se escaneó su etiqueta dos veces? Cada rollo necesita un nombre propio.",
    ],
    UnknownReel: ["El rollo {at} es desconocido", "Escanéelo otra vez, o recíbalo primero."],
    UnknownSheet: [
      "{at} no tiene hoja para esta máquina",
      "Elija otro producto, o haga definir su hoja.",
    ],
    MachineBusy: ["Hay una placa en curso en {at}", "Deje que se termine primero."],
    SlotTwice: ["La posición {at} está dos veces en la hoja", "Haga corregir la hoja."],
    DesignatorTwice: [
      "La referencia {at} se nombra dos veces",
      "Haga corregir la hoja o el programa.",
    ],
    NoProduct: ["No hay producto elegido en {at}", "Elíjalo en Cambio y escanee otra vez."],
    SlotNotOnSheet: [
      "La posición {at} no está en la hoja del producto elegido",
      "¿Era otra posición? ¿Está elegido el producto correcto?",
    ],
    SlotTaken: [
      "La posición {at} tiene un rollo con piezas",
      "Escanee otra vez posición y rollo para empalmar, o DESCARGUE primero.",
    ],
    SlotEmpty: [
      "La posición {at} no tiene rollo con piezas",
      "Escanee otra vez posición y rollo para cargar.",
    ],
    ReelMounted: [
      "El rollo {at} está en una posición, con piezas",
      "Tome otro rollo, o DESCARGUE primero su posición.",
    ],
    ReelEmpty: [
      "Al rollo {at} no le queda ninguna pieza",
      "Tome otro rollo. Un rollo gastado sigue gastado.",
    ],
    WrongPart: [
      "PIEZA EQUIVOCADA: {at} no va aquí",
      "Quítelo. Traiga un rollo de la pieza correcta.",
    ],
    NotBaked: [
      "El rollo {at} es de nivel 6 y no se horneó",
      "Hágalo hornear y escanee HORNEAR y el rollo.",
    ],
    Expired: ["CADUCADO: se agotó la vida útil de {at}", "Tome otro rollo. Haga hornear este."],
    BoardBusy: ["La placa {at} está en curso en otra máquina", "Deje que se termine allí."],
    OtherProduct: [
      "La placa {at} se empezó como otro producto",
      "Mire su número de serie, o elija su producto.",
    ],
    NotInWork: [
      "La placa {at} no está en curso en esta máquina",
      "Hágala iniciar, o mire su número de serie.",
    ],
    DesignatorNotOnSheet: [
      "La referencia {at} no está en la hoja",
      "Haga corregir la hoja o el programa de montaje.",
    ],
    AlreadyPlaced: ["{at} ya se colocó en esta placa", "Nada, si se informó dos veces."],
    ReelShort: [
      "A los rollos en {at} les quedan pocas piezas",
      "Corrija el número. O escanee la carga o el empalme que falta.",
    ],
    ReelTwice: ["El rollo {at} está contado dos veces", "Corrija los recuentos."],
    CountAbove: [
      "Se contaron piezas en {at}, al que no le queda ninguna",
      "¿Es el rollo correcto? Entonces reciba las piezas como rollo nuevo.",
    ],
  },
  unknownMachine:
    "Ninguna hoja del desk nombra esta máquina: su nombre es desconocido. Revise cómo está " +
    "escrito en la configuración.",
  faulty: [
    "El desk no puede leer este mensaje: {fault} {member}",
    "Llame a quien instaló la estación.",
  ],
  ignored: [
    "El desk no conoce esta clase de mensaje: {name}",
    "Llame a quien instaló la estación.",
  ],
  otherRefusal: ["El desk dice {refusal}: {at}", "Llame al jefe de línea."],
};
