asm Tank
signature:
    enum domain Pump = {OFF | ON}
    domain Percent subsetof Integer
    monitored level: Percent
    out pump: Pump
    controlled filled: Integer
definitions:
    domain Percent = {0..100}
    rule r_turn($to in Pump) =
        par
            pump := $to
            filled := 0
        endpar
    invariant inv_full over level, pump: level > 90 implies pump = OFF
    main rule r_Main =
        if pump = OFF then
            if level < 20 then r_turn[ON] endif
        else
            // filled counts the steps through which the pump has run on
            if level > 80 then r_turn[OFF] else filled := filled + 1 endif
        endif
default init s0:
    function pump = OFF
    function filled = 0
