// What the texts of texts.rs are drawn from.

// The words of a page of prose, as often as they stand in it: so lengths and accents come as they do in prose.
pub const ENGLISH: &str = "the night watch at the northern station begins when the last express has passed through the tunnel and the platforms are empty a single recorder keeps
every line that the consoles print and somebody has to read them in the morning most are ordinary messages about signals points and routes but
sometimes a damaged cable turns an honest report into complete nonsense yesterday evening an engineer replaced several meters of wire near the river
bridge because rain had been falling for almost three weeks and the insulation was older than anybody remembered afterwards the numbers looked better
though nobody believed that the trouble had really disappeared the manager asked for a written summary before friday it should explain which messages
were understood which were thrown away and how much confidence the railway may reasonably place in a machine that judges language without knowing what
any word means children waved from the last carriage while the conductor closed the doors and looked once more along the empty line";

pub const FRENCH: &str = "la garde de nuit à la gare du nord commence quand le dernier train express a traversé le tunnel et que les quais sont vides un seul appareil
enregistre chaque ligne que les consoles impriment et quelqu'un doit les lire le matin la plupart sont des messages ordinaires sur les signaux les
aiguilles et les itinéraires mais parfois un câble abîmé transforme un rapport honnête en un charabia complet hier soir un ingénieur a remplacé
plusieurs mètres de fil près du pont de la rivière parce que la pluie tombait depuis presque trois semaines et que l'isolation était plus vieille que
personne ne se rappelait ensuite les chiffres semblaient meilleurs bien que personne ne crût que le problème avait vraiment disparu le directeur a
demandé un résumé écrit avant vendredi il devrait expliquer quels messages ont été compris lesquels ont été jetés et quelle confiance le chemin de fer
peut raisonnablement accorder à une machine qui juge la langue sans savoir ce que signifie un mot des enfants saluaient depuis la dernière voiture
pendant que le contrôleur fermait les portes et regardait une fois encore le long de la voie déserte";

pub const RUSSIAN: &str = "ночная смена на северной станции начинается когда последний скорый поезд проходит через туннель и платформы пустеют единственный самописец хранит
каждую строку которую печатают пульты и кто-то должен прочитать их утром большинство из них обычные сообщения о сигналах стрелках и маршрутах но
иногда повреждённый кабель превращает честный доклад в полную бессмыслицу вчера вечером инженер заменил несколько метров провода возле моста через
реку потому что дождь шёл почти три недели и изоляция была старше чем кто-либо помнил после этого числа выглядели лучше хотя никто не верил что
неисправность действительно исчезла начальник попросил письменный отчёт до пятницы в нём надо объяснить какие сообщения были поняты какие выброшены и
насколько железная дорога может доверять машине которая судит о языке не зная что значит слово дети махали из последнего вагона пока проводник
закрывал двери и ещё раз смотрел вдоль пустого пути";

pub const GREEK: &str = "η νυχτερινή βάρδια στον βόρειο σταθμό αρχίζει όταν το τελευταίο τρένο περνά από τη σήραγγα και οι αποβάθρες αδειάζουν ένας μόνο καταγραφέας κρατά κάθε
γραμμή που τυπώνουν οι κονσόλες και κάποιος πρέπει να τις διαβάσει το πρωί οι περισσότερες είναι συνηθισμένα μηνύματα για σήματα κλειδιά και διαδρομές
αλλά μερικές φορές ένα χαλασμένο καλώδιο μετατρέπει μια τίμια αναφορά σε πλήρη ασυναρτησία χθες το βράδυ ένας μηχανικός άλλαξε μερικά μέτρα σύρμα
κοντά στη γέφυρα του ποταμού επειδή η βροχή έπεφτε σχεδόν τρεις εβδομάδες και η μόνωση ήταν παλαιότερη από όσο θυμόταν κανείς ύστερα οι αριθμοί
φαίνονταν καλύτεροι αν και κανείς δεν πίστευε ότι η βλάβη είχε πραγματικά εξαφανιστεί ο διευθυντής ζήτησε γραπτή περίληψη πριν από την παρασκευή και
πρέπει να εξηγεί ποια μηνύματα έγιναν κατανοητά ποια πετάχτηκαν και πόση εμπιστοσύνη μπορεί να έχει ο σιδηρόδρομος σε μια μηχανή που κρίνει τη γλώσσα
χωρίς να ξέρει τι σημαίνει μια λέξη";

// Common Chinese characters, the commonest first. Others are drawn from the whole block of ideographs.
pub const IDEOGRAPHS: &str = "的一是不了人我在有他这为之大来以个中上们到说国和地也子时道出而要于就下得可你年生自会那后能对着事其里所去行过家十用发天如然作方成者多日都三小
军二无同么经法当起与好看学进种将还分此心前面又定见只主没公从今回很己最美山水火木金土石田目耳口手足站立走跑飞鸟鱼虫马牛羊犬猫草花树林森河海江
湖风雨雪云电雷光明暗红黄蓝白黑东西南北左右高低长短新旧老少男女父母兄弟姐妹春夏秋冬早晚午夜星期月周刻分秒车船机票路桥城市村镇街店房门窗桌椅书
笔纸画字词句文章报告信号线路声音开关记录检查数据程序系统网络消息问题答案方法结果原因意思关系情况工作生活社会经济政治历史科学技术教育文化世界";

pub const KANJI: &str = "日一国会人年大十二本中長出三時行見月後前生五間上東四今金九入学高円子外八六下来気小七山話女北午百書先名川千水半男西電校語土木聞食車何南万毎白天母火右読友左休父雨駅線信号音声記録機械仕事世界社会問題";
pub const HIRAGANA: &str = "のにいはるをたがでてとしれさあすもなかっりうこまんきらくよえおそつけやみめせどちだわほろじばひへねずむびぶふべごげぎぐざぜぞづぼぱぴぷぺぽゃゅょぁぃ";
pub const KATAKANA: &str =
    "ンーストルイラリクアドグテシロコジプマタフレキデサムバナカメニツチブワビュョェオパミハソセノモボエゲダピガウホポズベケゴヤ";

// The parts of a Hangul syllable by their numbers in the Unicode Standard's arithmetic (3.12), the commoner ones first.
pub const INITIALS: [u32; 19] = [11, 0, 3, 9, 12, 2, 18, 5, 6, 7, 14, 16, 17, 15, 1, 4, 10, 8, 13];
pub const VOWELS: [u32; 21] = [0, 20, 18, 8, 4, 13, 6, 1, 5, 9, 17, 12, 2, 11, 14, 16, 7, 10, 19, 15, 3];
pub const FINALS: [u32; 12] = [0, 4, 8, 21, 16, 1, 17, 19, 20, 7, 22, 25];

// A console's lines: date, time, console, signal, place and state.
pub const PLACES: [&str; 8] =
    ["signal box B", "the north yard", "platform 4", "the tunnel", "Mill Lane crossing", "the depot", "junction 17", "the river bridge"];
pub const STATES: [&str; 8] = [
    "waits for the route to be released",
    "is clear",
    "shows stop; last train 1B27",
    "was set by hand",
    "answers after 3 tries (0x1F, 0x20)",
    "is not detected!",
    "reports 78% of its current",
    "went back to caution",
];
