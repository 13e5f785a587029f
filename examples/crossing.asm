asm Crossing
import ../STDL/StandardLibrary
signature:
    enum domain Light = {RED | AMBER | GREEN}
    enum domain Walk = {STOP | GO}
    domain Count subsetof Integer
    dynamic monitored button: Boolean
    dynamic controlled light: Light
    dynamic controlled ticks: Count
    dynamic controlled waiting: Boolean
    dynamic out walk: Walk
    derived limit: Light -> Integer
    derived expired: Boolean
definitions:
    domain Count = {0..9}
    function limit($l in Light) =
        switch $l
            case GREEN: 4
            case AMBER: 1
            otherwise 3
        endswitch
    function expired = ticks >= limit(light)
    rule r_turn($next in Light) =
        par
            light := $next
            ticks := 0
        endpar
    rule r_green =
        if expired and waiting then r_turn[AMBER]
        else if not expired then ticks := ticks + 1 endif
        endif
    rule r_amber =
        if expired then par r_turn[RED] walk := GO endpar
        else ticks := ticks + 1 endif
    rule r_red =
        if expired then
            par r_turn[GREEN] walk := STOP waiting := false endpar
        else ticks := ticks + 1 endif
    invariant inv_safe over light, walk: walk = GO implies light = RED
    invariant inv_ticks over ticks: ticks <= 4
    main rule r_Main =
        par
            // a press while cars may go is kept
            if button and light != RED then waiting := true endif
            switch light
                case GREEN: r_green[]
                case AMBER: r_amber[]
                otherwise r_red[]
            endswitch
        endpar
default init s0:
    function light = GREEN
    function ticks = 0
    function waiting = false
    function walk = STOP
