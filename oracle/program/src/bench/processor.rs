//! Which processor the times are of.

/// The architecture, and the processor's name as Linux tells it.
pub fn name() -> String {
    let told = std::fs::read_to_string("/proc/cpuinfo").unwrap_or_default();
    named(std::env::consts::ARCH, &told)
}

/// On x86-64 Linux tells a name, on Arm the numbers of the maker and of the design.
fn named(architecture: &str, told: &str) -> String {
    let field = |name: &str| {
        let fields = told.lines().filter_map(|line| line.split_once(':'));
        fields
            .map(|(found, value)| (found.trim(), value.trim()))
            .find(|(found, _)| *found == name)
    };
    match (field("model name"), field("CPU implementer"), field("CPU part")) {
        (Some((_, model)), _, _) => format!("{architecture}, {model}"),
        (_, Some((_, maker)), Some((_, part))) => format!("{architecture}, implementer {maker}, part {part}"),
        _ => architecture.to_string(),
    }
}

#[cfg(test)]
mod tests {
    use super::named;

    #[test]
    fn a_name_on_x86() {
        assert_eq!(
            named("x86_64", "processor\t: 0\nmodel\t\t: 173\nmodel name\t: Quick: 2\n"),
            "x86_64, Quick: 2"
        );
    }

    #[test]
    fn numbers_on_arm() {
        let told = "processor\t: 0\nCPU implementer\t: 0x41\nCPU part\t: 0xd40\n";
        assert_eq!(named("aarch64", told), "aarch64, implementer 0x41, part 0xd40");
    }

    #[test]
    fn the_architecture_alone() {
        assert_eq!(named("riscv64", "isa : rv64\n"), "riscv64");
    }
}
