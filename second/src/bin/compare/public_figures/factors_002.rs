//! Rows of source 002 (EPA support document), Appendix B, as printed: line, fuel,
//! F-factor in dscf/mmBtu and F_C-factor in scf CO2/mmBtu.

pub struct Row {
    pub line: &'static str,
    pub fuel: &'static str,
    pub dry_gas: &'static str,
    pub co2: &'static str,
}

const ROWS: &str = "904; anthracite; 10,100; 1,970
                    905; bituminous coal; 9,780; 1,800
                    906; subbituminous coal; 9,820; 1,840
                    907; lignite; 9,860; 1,910
                    908; petroleum coke; 9,830; 1,850
                    909; tire derived fuel; 10,260; 1,800
                    910; oil; 9,190; 1,420
                    912; natural gas; 8,710; 1,040
                    913; propane; 8,710; 1,190
                    914; butane; 8,710; 1,250
                    916; bark; 9,600; 1,920
                    917; wood residue; 9,240; 1,830
                    926; municipal solid waste; 9,570; 1,820";

pub fn rows() -> impl Iterator<Item = Row> {
    ROWS.lines().filter_map(|line| {
        let mut columns = line.split(';').map(str::trim);
        Some(Row {
            line: columns.next()?,
            fuel: columns.next()?,
            dry_gas: columns.next()?,
            co2: columns.next()?,
        })
    })
}
