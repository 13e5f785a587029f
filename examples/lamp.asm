asm Lamp
signature:
    enum domain Pump = {OFF | ON}
    monitored pump: Pump
    out lit: Boolean
definitions:
    main rule r_Main = lit := pump = ON
